/*
 * The tabs and the address. The part of the address behind # is the name of a tab and, behind ?, what the tab keeps
 * there: #link?scene=0 or #cell?octets=00. A tab is a function of its element and the engine, and answers an object
 * with load(query), which is called with the text behind ? whenever the address names the tab.
 */

const TABS = { link: linkTab, card: cardTab, cell: cellTab };
const loaded = {};

/* The tab that the address names, and what it has behind ?; the first tab if it names another. */
function addressed() {
    const [name, ...query] = location.hash.slice(1).split("?");
    if (Object.hasOwn(TABS, name)) return { name, query: query.join("?"), unknown: "" };
    return { name: "link", query: "", unknown: location.hash };
}

/* Puts a tab's settings into the address, without a step in the browser's history. */
function setAddress(tab, query) {
    if (addressed().name !== tab) return;
    history.replaceState(null, "", query === "" ? `#${tab}` : `#${tab}?${query}`);
}

function show(name) {
    for (const tab of Object.keys(TABS)) {
        const chosen = tab === name, button = document.getElementById(`tab-${tab}`);
        button.setAttribute("aria-selected", String(chosen));
        button.tabIndex = chosen ? 0 : -1;
        document.getElementById(tab).hidden = !chosen;
    }
}

function follow() {
    const { name, query, unknown } = addressed();
    show(name);
    loaded[name]?.load(query);
    const said = unknown === "" ? "" : `The address names no part of this page: ${unknown}. This is the link.`;
    document.getElementById("address").textContent = said;
}

/* Left and right go to the tab beside, as in other tab lists. */
function step(event) {
    const names = Object.keys(TABS), by = { ArrowLeft: -1, ArrowRight: 1 }[event.key];
    if (!by) return;
    const next = names[(names.indexOf(event.target.id.slice(4)) + by + names.length) % names.length];
    location.hash = next;
    document.getElementById(`tab-${next}`).focus();
}

function versionText(engine) {
    const version = engine.abr_version(), part = (shift) => (version >>> shift) & 0xff;
    return `Version ${part(16)}.${part(8)}.${part(0)}: the proved module, compiled for WebAssembly.`;
}

async function main() {
    for (const name of Object.keys(TABS)) {
        document.getElementById(`tab-${name}`).addEventListener("click", () => { location.hash = name; });
    }
    document.querySelector("[role=tablist]").addEventListener("keydown", step);
    show(addressed().name);
    const engine = await loadEngine();
    document.getElementById("version").textContent = versionText(engine);
    for (const [name, tab] of Object.entries(TABS)) loaded[name] = tab(document.getElementById(name), engine);
    addEventListener("hashchange", follow);
    follow();
    document.body.dataset.ready = "yes";
}

main();
