/*
 * The three observations of the paper's section 3.3, each with what the runs that are drawn say of it: where it
 * holds, where it does not, and by how much. Every sentence is made from the runs.
 */

/* The points of runs: at(which, name, capacity, traffic) in cells a slot, or by the paper's measure. */
function switchPoints(results, slots) {
    const by = (measure) => (which, name, capacity, traffic) =>
        switchMeasure(results, slots, measure, { which, name, capacity, traffic });
    return { slot: by(0), paper: by(1) };
}

const percentText = (part) => `${(100 * part).toFixed(1)} %`;

/* Every traffic and buffer, as objects. */
const switchPlaces = () => TRAFFICS.flatMap((traffic) => CAPACITIES.map((capacity) => ({ traffic, capacity })));

/* Places in words: traffics, each with its buffers. */
function placesText(places) {
    const traffics = TRAFFICS.filter((traffic) => places.some((each) => each.traffic === traffic));
    return traffics.map((traffic) => {
        const buffers = places.filter((each) => each.traffic === traffic).map(({ capacity }) => capacity);
        const all = buffers.length === CAPACITIES.length;
        return `${traffic} % (${all ? "all buffers" : `buffer ${buffers.join(", ")}`})`;
    }).join(", ");
}

/* Where something does not hold, since short(place) is above 0, or 0 if that is not enough, in words, with the most. */
function exceptionsText(places, short, enough = true) {
    const found = places.filter((place) => enough ? short(place) > 0 : short(place) >= 0);
    const most = Math.max(0, ...found.map(short));
    const by4 = most < 0.0001 ? "less than 0.0001" : `${most.toFixed(4)} at most`;
    return found.length === 0 ? " everywhere" : `, except at ${placesText(found)}, by ${by4}`;
}

/* 1: with a larger buffer more is sent, and less lost. A place is the larger of two neighbouring buffers. */
function bufferObserved({ slot }) {
    const places = switchPlaces().filter(({ capacity }) => capacity > CAPACITIES[0]);
    return SWITCH_NAMES.map((name, which) => {
        const grown = (what) => ({ traffic, capacity }) =>
            slot(which, what, capacity, traffic) - slot(which, what, capacity - 1, traffic);
        const sent = exceptionsText(places, (place) => -grown("sent")(place));
        return `${name}: no less is sent${sent}; no more is lost${exceptionsText(places, grown("lost"))}`;
    });
}

/* 2: the switch with ABR is the better one. */
function betterObserved({ slot, paper }) {
    const behind = (at, which, what, sign) => ({ traffic, capacity }) =>
        sign * (at(0, what, capacity, traffic) - at(which, what, capacity, traffic));
    return [1, 2].map((which) => {
        const said = (at, what, sign) => exceptionsText(switchPlaces(), behind(at, which, what, sign), false);
        const parts = switchPlaces().map(({ traffic, capacity }) =>
            1 - slot(which, "data", capacity, traffic) / slot(0, "data", capacity, traffic));
        const fewer = [Math.min(...parts), Math.max(...parts)].map(percentText).join(" to ");
        return `${SWITCH_NAMES[which]}: by the paper's measures more is sent${said(paper, "sent", 1)}, and less lost` +
            `${said(paper, "lost", -1)}; in cells a slot more is sent${said(slot, "sent", 1)}, and less lost` +
            `${said(slot, "lost", -1)}. Of data alone, without RM cells, it sends ${fewer} less`;
    });
}

/* A part at the least traffic and at the most, with the smallest and the largest buffer. */
function rangeText(of) {
    const [least, most] = [CAPACITIES[0], CAPACITIES[CAPACITIES.length - 1]];
    return [TRAFFICS[0], TRAFFICS[TRAFFICS.length - 1]].map((traffic) => {
        const [one, other] = [least, most].map((capacity) => percentText(of(capacity, traffic)));
        const text = one === other ? one : `${one} (buffer ${least}) or ${other} (buffer ${most})`;
        return `${text} at ${traffic} % of traffic`;
    }).join(", ");
}

/* 3: with more traffic it gets better with ABR, and worse without. */
function trafficObserved({ slot, paper }) {
    const lost = (which) => rangeText((capacity, traffic) => slot(which, "lost", capacity, traffic) /
        (slot(which, "sent", capacity, traffic) + slot(which, "lost", capacity, traffic)));
    const lead = (which) => rangeText((capacity, traffic) =>
        paper(which, "sent", capacity, traffic) / paper(0, "sent", capacity, traffic) - 1);
    return SWITCH_NAMES.map((name, which) => `${name}: the part of its cells that is lost is ${lost(which)}` +
        (which === 0 ? "" : `; by the paper's measure its lead in sending over the one without ABR is ${lead(which)}`));
}

const OBSERVED = [
    ["With a larger buffer more is sent and less lost.", bufferObserved],
    ["The switch with ABR is the better one.", betterObserved],
    ["With more traffic it gets better with ABR, and worse without.", trafficObserved],
];

/* What the paper observed, and what the runs that are drawn say of it. */
function switchObserved(results, slots) {
    const points = switchPoints(results, slots), said = (text) => element("li", {}, `${text}.`);
    const items = OBSERVED.map(([text, observed]) =>
        element("li", {}, element("strong", {}, text), element("ul", {}, observed(points).map(said))));
    const chance = slots === SWITCH_SLOTS[0] ? " Neighbouring points may differ by chance by a few thousandths." : "";
    const note = `Said of the runs drawn here, of ${slots.toLocaleString("en")} slots each.${chance} The paper does ` +
        "not say its thresholds.";
    return element("div", {}, element("ol", {}, items), element("p", { class: "note" }, note));
}
