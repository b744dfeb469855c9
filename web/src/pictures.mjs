// Pictures of answers, drawn with D3. Each has a text for screen readers, and beside it stands the table that it shows. Colours are safe for
// colour-blind people: those of Okabe and Ito for a few values, cividis for many, and one blue, the darker the likelier, for probabilities.
import { select } from "d3-selection";
import { scaleLinear } from "d3-scale";
import { interpolateBlues, interpolateCividis } from "d3-scale-chromatic";
import { linkHorizontal } from "d3-shape";
import { priorOf } from "./answers.mjs";
import { NOTHING, fractionOf, near } from "./fractions.mjs";

/** @typedef {import("./answers.mjs").Groups} Groups */

const FEW = ["#e69f00", "#56b4e9", "#009e73", "#f0e442", "#0072b2", "#d55e00", "#cc79a7", "#999999"];
/** A picture is drawn for the width that it has on the page, so that its letters have the size of others. These are its bounds. */
const WIDEST = 760;
const NARROWEST = 340;
const MOST_CELLS = 6000;

/** @param {string} text */
const size = (text) => near(fractionOf(text) || NOTHING);

/**
 * Whether black letters are read better on a colour than white ones.
 * @param {string} colour as #rrggbb or rgb(r, g, b)
 */
function isLight(colour) {
    const parts = colour.startsWith("#") ? [1, 3, 5].map((at) => parseInt(colour.slice(at, at + 2), 16)) : (colour.match(/\d+/g) || []).map(Number);
    const [red, green, blue] = parts.map((part) => ((part / 255 + 0.055) / 1.055) ** 2.4);
    return 0.2126 * red + 0.7152 * green + 0.0722 * blue > 0.179;
}

/** The width that a picture has now, in letters of the usual size: where letters are larger, so is all of the picture. */
export function room() {
    const column = document.getElementById("answers");
    const letters = parseFloat(getComputedStyle(document.documentElement).fontSize) / 16;
    return Math.min(Math.max(column === null ? WIDEST : column.clientWidth / letters, NARROWEST), WIDEST);
}

/**
 * @param {number} width
 * @param {number} height
 * @param {string} label
 */
export function canvas(width, height, label) {
    const svg = document.createElementNS("http://www.w3.org/2000/svg", "svg");
    svg.setAttribute("viewBox", `0 0 ${width} ${height}`);
    svg.setAttribute("role", "img");
    svg.setAttribute("aria-label", label);
    svg.setAttribute("class", "picture");
    return { svg, drawing: select(svg) };
}

/** @typedef {{ x: number, y: number, width: number, height: number, fill: string, labels: string[], title: string }} Box with the labels that it may have */

/**
 * The first of a box's labels that fits into it.
 * @param {Box} box
 */
const labelOf = ({ width, height, labels }) => (height < 15 ? undefined : labels.find((it) => width >= 8 * it.length + 4));

/**
 * @param {any} drawing
 * @param {Box[]} boxes
 */
function addBoxes(drawing, boxes) {
    const all = drawing.append("g").selectAll("g").data(boxes).enter().append("g");
    all.append("rect").attr("x", (/** @type {any} */ it) => it.x).attr("y", (/** @type {any} */ it) => it.y)
        .attr("width", (/** @type {any} */ it) => Math.max(it.width, 0.5)).attr("height", (/** @type {any} */ it) => Math.max(it.height, 0.5))
        .attr("fill", (/** @type {any} */ it) => it.fill).attr("class", "box");
    all.append("title").text((/** @type {any} */ it) => it.title);
    all.filter((/** @type {Box} */ it) => labelOf(it) !== undefined).append("text")
        .attr("x", (/** @type {any} */ it) => it.x + it.width / 2).attr("y", (/** @type {any} */ it) => it.y + it.height / 2)
        .attr("class", "box-label").style("fill", (/** @type {any} */ it) => (isLight(it.fill) ? "#000000" : "#ffffff")).text(labelOf);
}

/**
 * @param {any} drawing
 * @param {{ x: number, y: number, text: string, anchor?: string, isStrong?: boolean, isSoft?: boolean }[]} labels
 */
export function addLabels(drawing, labels) {
    drawing.append("g").selectAll("text").data(labels).enter().append("text").attr("x", (/** @type {any} */ it) => it.x)
        .attr("y", (/** @type {any} */ it) => it.y).attr("class", (/** @type {any} */ it) => (it.isStrong ? "label strong" : it.isSoft ? "label soft" : "label"))
        .attr("text-anchor", (/** @type {any} */ it) => it.anchor || "middle").text((/** @type {any} */ it) => it.text);
}

/**
 * A colour for each value.
 * @param {string[]} values
 */
export function coloursOf(values) {
    const colour = (/** @type {number} */ index) => (values.length <= FEW.length ? FEW[index] : interpolateCividis(index / (values.length - 1)));
    return new Map(values.map((value, index) => [value, colour(index)]));
}

/**
 * The hyper as columns: one for the prior, and one for each inner, as wide as it is likely. In a column each value is as high as it is likely,
 * so that its area is its joint probability. null where it is too large for a picture.
 * @param {Groups} hyper
 */
export function hyperPicture(hyper) {
    const prior = priorOf(hyper);
    const cells = hyper.groups.reduce((count, group) => count + group.shares.length, 0);
    if (!hyper.isWhole || cells > MOST_CELLS) {
        return null;
    }
    const colours = coloursOf(prior.map(({ value }) => value));
    const whole = room();
    const side = whole / 7;
    const height = 330;
    const top = 26;
    const y = scaleLinear([0, 1], [top, height - 44]);
    const gap = Math.min(6, 120 / hyper.groups.length);
    const left = side + 40;
    const x = scaleLinear([0, 1], [left, whole - 10 - gap * hyper.groups.length]);
    /** @type {any[]} */
    const drawn = [];
    /** @type {any[]} */
    const texts = [{ x: 10 + side / 2, y: 16, text: "prior", isStrong: true }, { x: left, y: 16, text: "posteriors (inners)", anchor: "start", isStrong: true }];
    const column = (/** @type {number} */ from, /** @type {number} */ width, /** @type {import("./answers.mjs").Share[]} */ shares, /** @type {string} */ name) => {
        let bottom = 0;
        for (const { value, share } of shares) {
            const next = bottom + size(share);
            const title = `${name}: ${value} with probability ${share}`;
            drawn.push({ x: from, y: y(bottom), width, height: y(next) - y(bottom) - 1, fill: colours.get(value), labels: [`${value}: ${share}`, value], title });
            bottom = next;
        }
    };
    column(10, side, prior, "prior");
    let seen = 0;
    hyper.groups.forEach((group, index) => {
        const next = seen + size(group.weight);
        const place = x(seen) + gap * index;
        const width = x(next) - x(seen);
        column(place, width, group.shares, `inner ${group.name}, outer ${group.weight}`);
        if (width >= 9 * group.weight.length) {
            texts.push({ x: place + width / 2, y: height - 28, text: group.weight, isStrong: true });
        }
        if (width >= 60) {
            texts.push({ x: place + width / 2, y: height - 10, text: `inner ${group.name}` });
        }
        seen = next;
    });
    texts.push({ x: left - 8, y: height - 28, text: "outer", anchor: "end" });
    const said = hyper.groups.slice(0, 8).map((group) => `inner ${group.name} with outer probability ${group.weight}`).join(", ");
    const { svg, drawing } = canvas(whole, height, `Picture of the hyper: ${hyper.count} inners, ${said}. The table has all numbers.`);
    addBoxes(drawing, drawn);
    addLabels(drawing, texts);
    return svg;
}

/**
 * A matrix as a heat map: the likelier, the darker. null where it is too large.
 * @param {string[][]} cells
 * @param {string[]} rows their heads
 * @param {string[]} columns their heads
 * @param {string} label
 */
export function heatMap(cells, rows, columns, label) {
    if (cells.length * columns.length > MOST_CELLS || rows.length === 0 || columns.length === 0) {
        return null;
    }
    const whole = room();
    const most = whole < WIDEST / 2 ? 10 : 22;
    const left = 16 + 8 * Math.min(Math.max(...rows.map((it) => it.length)), most);
    const width = Math.min((whole - left - 10) / columns.length, 130);
    const height = Math.max(Math.min(44, 560 / rows.length), 3);
    const drawn = cells.flatMap((row, i) => row.map((cell, j) => ({
        x: left + j * width, y: 28 + i * height, width: width - 1, height: height - 1,
        fill: interpolateBlues(size(cell)), labels: [cell], title: `${rows[i]}, ${columns[j]}: ${cell}`,
    })));
    const shorter = (/** @type {string} */ text, /** @type {number} */ length) => (text.length > length ? `${text.slice(0, length - 1)}…` : text);
    const heads = columns.map((text, j) => ({ x: left + (j + 0.5) * width, y: 18, text: shorter(text, Math.floor(width / 8)) })).filter(() => width >= 20);
    const sides = rows.map((text, i) => ({ x: left - 8, y: 28 + (i + 0.5) * height + 5, text: shorter(text, most), anchor: "end" })).filter(() => height >= 12);
    const { svg, drawing } = canvas(whole, 36 + rows.length * height, label);
    addBoxes(drawing, drawn);
    addLabels(drawing, [...heads, ...sides]);
    return svg;
}

const FLOW = { height: 300, top: 30, side: 120, bar: 14, most: 60 };

/**
 * Where each of some bars stands, as high as it is likely.
 * @param {string[]} outers
 */
function barsOf(outers) {
    const gap = Math.min(12, 90 / outers.length);
    const scale = scaleLinear([0, 1], [0, FLOW.height - FLOW.top - 10 - gap * (outers.length - 1)]);
    let at = 0;
    return outers.map((outer, index) => {
        const top = FLOW.top + scale(at) + gap * index;
        at += size(outer);
        return { outer, top, height: scale(size(outer)), used: 0 };
    });
}

/**
 * A band for each entry of the matrix that isn't 0, from the inner that it leaves to that in which it arrives.
 * @param {ReturnType<typeof barsOf>} left
 * @param {ReturnType<typeof barsOf>} right
 * @param {string[]} letters
 * @param {string[][]} matrix
 */
function bandsOf(left, right, letters, matrix) {
    const link = linkHorizontal();
    const end = room() - FLOW.side;
    return matrix.flatMap((row, i) => row.map((cell, j) => {
        const [from, to] = [left[i], right[j]];
        const leaving = from.height * size(cell);
        const arriving = to.height * Math.min((size(from.outer) * size(cell)) / size(to.outer), 1);
        const source = [FLOW.side, from.top + from.used + leaving / 2];
        const target = [end, to.top + to.used + arriving / 2];
        from.used += leaving;
        to.used += arriving;
        const title = `inner ${i} of ${letters[0]} goes to inner ${j} of ${letters[1]} with probability ${cell}`;
        return { path: link({ source, target }), width: (leaving + arriving) / 2, title, fill: FEW[i % FEW.length] };
    })).filter(({ width }) => width > 0);
}

/**
 * How a matrix makes the inners of one hyper of those of another: bands as wide as what goes from one to the other. null where there are too many.
 * @param {string[][]} outers of the one and of the other
 * @param {string[]} letters what the two texts are called
 * @param {string[][]} matrix
 */
export function flowPicture(outers, letters, matrix) {
    if (outers.some((it) => it.length > FLOW.most)) {
        return null;
    }
    const [left, right] = outers.map(barsOf);
    const label = `Picture of the matrix: how the ${left.length} inners of ${letters[0]} become the ${right.length} inners of ${letters[1]}. The table has its numbers.`;
    const { svg, drawing } = canvas(room(), FLOW.height, label);
    const bands = drawing.append("g").selectAll("path").data(bandsOf(left, right, letters, matrix)).enter().append("path").attr("class", "band")
        .attr("d", (/** @type {any} */ it) => it.path).attr("stroke", (/** @type {any} */ it) => it.fill)
        .attr("stroke-width", (/** @type {any} */ it) => Math.max(it.width, 1));
    bands.append("title").text((/** @type {any} */ it) => it.title);
    const sides = [
        { bars: left, letter: letters[0], x: FLOW.side - FLOW.bar, beside: FLOW.side - FLOW.bar - 8, anchor: "end" },
        { bars: right, letter: letters[1], x: room() - FLOW.side, beside: room() - FLOW.side + FLOW.bar + 8, anchor: "start" },
    ];
    sides.forEach(({ bars, letter, x, beside, anchor }, side) => {
        addBoxes(drawing, bars.map(({ top, height, outer }, i) => ({
            x, y: top, width: FLOW.bar, height, fill: side === 0 ? FEW[i % FEW.length] : "#777777", labels: [], title: `inner ${i} of ${letter}, outer ${outer}`,
        })));
        const names = bars.map(({ top, height, outer }, i) => ({ x: beside, y: top + height / 2 + 5, text: `${i}: ${outer}`, anchor }));
        addLabels(drawing, [{ x: beside, y: 18, text: `inners of ${letter}`, anchor, isStrong: true }, ...names.filter(() => bars.length <= 25)]);
    });
    return svg;
}
