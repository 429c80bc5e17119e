/*
 * Elements made in one expression: element("p", { id: "a", onclick: f }, "text", child). A setting that begins with on
 * is a listener, every other an attribute: true is one without a value, false and null are none.
 */

const SVG = "http://www.w3.org/2000/svg";

function put(made, settings, children) {
    for (const [name, value] of Object.entries(settings)) {
        if (name.startsWith("on")) made.addEventListener(name.slice(2), value);
        else if (value === true) made.setAttribute(name, "");
        else if (value !== false && value !== null) made.setAttribute(name, value);
    }
    made.append(...children.flat().filter((child) => child !== null));
    return made;
}

function element(name, settings = {}, ...children) {
    return put(document.createElement(name), settings, children);
}

function drawn(name, settings = {}, ...children) {
    return put(document.createElementNS(SVG, name), settings, children);
}

/* Copies a text, and says on the button for a moment whether the browser let it. */
async function copyFrom(button, text) {
    const label = button.textContent;
    const copied = await navigator.clipboard.writeText(text).then(() => true, () => false);
    button.textContent = copied ? "Copied" : "Not copied";
    setTimeout(() => { button.textContent = label; }, 1200);
}
