/*
 * What of a page can't be read, for the tests of the page and of the manual: legible() answers how many texts are
 * shown, and what is wrong: a contrast of letters under 4.5 or of lines under 3, letters under 12 pixels, what is cut
 * off or stands outside the page.
 */

const LEAST_CONTRAST = 4.5, LEAST_LINE = 3, LEAST_SIZE = 12;
/* The colours of drawings, on canvases too. Lanes and grids only guide the eye. */
const LINES = ["ink", "muted", "bad", "good", "kept", "accent", "forward", "backward", "data",
    ...Array.from({ length: 8 }, (_, place) => `c${place}`)];
const pixel = document.createElement("canvas").getContext("2d", { willReadFrequently: true });

/* A colour of CSS as four numbers to 255. */
function rgba(colour) {
    pixel.clearRect(0, 0, 1, 1);
    pixel.fillStyle = colour;
    pixel.fillRect(0, 0, 1, 1);
    return [...pixel.getImageData(0, 0, 1, 1).data];
}

function over(top, under) {
    return under.map((part, place) => (top[place] * top[3] + part * (255 - top[3])) / 255);
}

/* Relative luminance, as WCAG defines it. */
function luminance(colour) {
    const linear = colour.map((part) => part / 255)
        .map((part) => part <= 0.04045 ? part / 12.92 : ((part + 0.055) / 1.055) ** 2.4);
    return 0.2126 * linear[0] + 0.7152 * linear[1] + 0.0722 * linear[2];
}

/* The colour behind an element. */
function groundOf(element) {
    const layers = [];
    for (let each = element; each; each = each.parentElement) {
        layers.unshift(rgba(getComputedStyle(each).backgroundColor));
    }
    return layers.reduce((under, top) => over(top, under), [255, 255, 255]);
}

function contrast(colour, under) {
    const [low, high] = [luminance(over(colour, under)), luminance(under)].sort((a, b) => a - b);
    return (high + 0.05) / (low + 0.05);
}

function contrastOf(element) {
    const style = getComputedStyle(element);
    return contrast(rgba(element instanceof SVGElement ? style.fill : style.color), groundOf(element));
}

/* The colours of lines that can't be told from the panel behind them. */
function wrongLines() {
    const style = getComputedStyle(document.body), colour = (name) => rgba(style.getPropertyValue(`--${name}`));
    const panel = colour("panel").slice(0, 3), found = LINES.map((name) => [name, contrast(colour(name), panel)]);
    return found.filter(([, ratio]) => !(ratio >= LEAST_LINE)).map(([name, ratio]) => `${name}: ${ratio.toFixed(2)}`);
}

/* What is wrong with a text of an element. */
function wrongLetters(element) {
    const wrong = [], ratio = contrastOf(element), size = parseFloat(getComputedStyle(element).fontSize);
    if (ratio < LEAST_CONTRAST) wrong.push(`contrast ${ratio.toFixed(2)}`);
    if (size < LEAST_SIZE) wrong.push(`size ${size}`);
    return wrong;
}

/* Whether a text can be reached: what scrolls by itself may hold more than is seen. */
function outside(element, box) {
    for (let each = element.parentElement; each; each = each.parentElement) {
        if (getComputedStyle(each).overflowX !== "visible") return false;
    }
    return box.left < -1 || box.right > innerWidth + 1;
}

/* The texts that are shown, each with its element and its place. */
function* texts() {
    const walker = document.createTreeWalker(document.body, NodeFilter.SHOW_TEXT), range = document.createRange();
    while (walker.nextNode()) {
        const node = walker.currentNode, element = node.parentElement, text = node.textContent.trim();
        if (text === "" || !element.checkVisibility() || element.closest(".unseen, script, style")) continue;
        range.selectNodeContents(node);
        yield { text, element, box: range.getBoundingClientRect() };
    }
}

/* What stands in boxes, and what is cut off. */
function* boxes() {
    for (const element of document.querySelectorAll("input, textarea, select, button, td, th, p, label, h1, h2, li")) {
        if (!element.checkVisibility() || element.closest(".unseen")) continue;
        const cut = element.scrollWidth > element.clientWidth + 1 && element.clientWidth > 0;
        const typed = /^(text|number|textarea|select-one)$/.test(element.type) && element.value !== "";
        yield { element, text: element.value ?? element.textContent, typed, cut: cut && element.tagName !== "TEXTAREA" };
    }
}

/* A page without drawings of its own has no lines. */
function legible(drawn = true) {
    const wrong = drawn ? wrongLines() : [], shown = [...texts()];
    const say = (element, text, what) => wrong.push(`${what}: ${text.slice(0, 60)} (${element.outerHTML.slice(0, 60)})`);
    for (const { element, text, box } of shown) {
        for (const what of wrongLetters(element)) say(element, text, what);
        if (outside(element, box)) say(element, text, "outside the page");
    }
    for (const { element, text, typed, cut } of boxes()) {
        for (const what of typed ? wrongLetters(element) : []) say(element, text, what);
        if (cut) say(element, text, "cut off");
    }
    const across = document.documentElement.scrollWidth;
    if (across > innerWidth) wrong.push(`the page is ${across} wide, and the window ${innerWidth}`);
    return { wrong, count: shown.length };
}
