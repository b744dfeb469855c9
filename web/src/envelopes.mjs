// Pictures of priors: over two values vulnerability as the upper envelope of its actions, over three the triangle with the regions of the best action and lines of the same worth.
// The prior and the inners are points in them; an inner is a disc as large as it is likely.
import { scaleLinear } from "d3-scale";
import { near, printed, typedFraction } from "./fractions.mjs";
import { envelope, levelLines, posteriorVulnerability, regions, vulnerability } from "./geometry.mjs";
import { addLabels, canvas, coloursOf, room } from "./pictures.mjs";

/** @typedef {import("./fractions.mjs").Fraction} Fraction */
/**
 * What is drawn: the values, the actions with their gains at each, a prior, and the inners that a channel makes of it.
 * @typedef {{ values: string[], names: string[], actions: Fraction[][], prior: Fraction[], inners: import("./geometry.mjs").Inner[] }} Scene
 */

const LINE = { height: 320, left: 46, right: 20, top: 24, bottom: 44 };
const SIDE = { most: 480, edge: 40 };
const LARGEST_DISC = 20;
/** About how many levels are drawn. */
const LEVELS = 5;

/** @param {Fraction} outer */
const radiusOf = (outer) => Math.max(LARGEST_DISC * Math.sqrt(near(outer)), 2);

/**
 * @param {any} drawing
 * @param {{ x: number, y: number, radius: number, title: string, label: string }[]} discs
 */
function addDiscs(drawing, discs) {
    const all = drawing.append("g").selectAll("circle").data(discs).enter().append("circle").attr("class", "disc");
    all.attr("cx", (/** @type {any} */ it) => it.x).attr("cy", (/** @type {any} */ it) => it.y).attr("r", (/** @type {any} */ it) => it.radius);
    all.append("title").text((/** @type {any} */ it) => it.title);
    addLabels(drawing, discs.map(({ x, y, radius, label }) => ({ x: x + radius + 4, y: y - 6, text: label, anchor: "start" })));
}

/**
 * A line between two points.
 * @param {any} drawing
 * @param {string} className
 * @param {number[]} from
 * @param {number[]} to
 */
const addLine = (drawing, className, [x1, y1], [x2, y2]) => drawing.append("line").attr("class", className).attr("x1", x1).attr("y1", y1).attr("x2", x2).attr("y2", y2);

/** @param {Scene} scene */
function linePicture({ values, names, actions, prior, inners }) {
    const width = room();
    const corners = envelope(actions).map(({ p, value }) => [near(p), near(value)]);
    const heights = corners.map(([, value]) => value);
    const lowest = Math.min(0, ...heights);
    const x = scaleLinear([0, 1], [LINE.left, width - LINE.right]);
    const y = scaleLinear([lowest, Math.max(...heights, lowest + 1e-9)], [LINE.height - LINE.bottom, LINE.top]);
    const label = `Picture of the vulnerability over the probability of ${values[1]}: an envelope with ${corners.length} corners, and ${inners.length} inners. `
        + "The tables have the numbers.";
    const { svg, drawing } = canvas(width, LINE.height, label);
    addLine(drawing, "axis", [x(0), y(lowest)], [x(1), y(lowest)]);
    addLine(drawing, "axis", [x(0), y(lowest)], [x(0), LINE.top]);
    const colours = coloursOf(names);
    actions.forEach(([a, b], index) => {
        const [from, to] = [near(a), near(b)];
        // What is below the picture is cut off.
        const meets = from === to ? 0 : (lowest - from) / (to - from);
        const [left, right] = [from < lowest ? meets : 0, to < lowest ? meets : 1];
        if (from >= lowest || to >= lowest) {
            const at = (/** @type {number} */ p) => [x(p), y(from + p * (to - from))];
            addLine(drawing, "action", at(left), at(right)).attr("stroke", colours.get(names[index]))
                .append("title").text(`${names[index]} gains ${printed(a)} at ${values[0]}, ${printed(b)} at ${values[1]}`);
        }
    });
    corners.slice(1).forEach((corner, index) => addLine(drawing, "envelope", [x(corners[index][0]), y(corners[index][1])], [x(corner[0]), y(corner[1])]));
    const worth = (/** @type {Fraction[]} */ shares) => near(vulnerability(actions, shares));
    const [before, after] = [vulnerability(actions, prior), posteriorVulnerability(actions, inners)];
    const expected = near(after);
    const p = near(prior[1]);
    addLine(drawing, "rise", [x(p), y(near(before))], [x(p), y(expected)]).append("title").text("from prior to posterior vulnerability: the additive leakage");
    addLine(drawing, "prior", [x(p), y(lowest)], [x(p), y(worth(prior))]);
    addDiscs(drawing, inners.map(({ outer, shares }, index) => ({
        x: x(near(shares[1])), y: y(worth(shares)), radius: radiusOf(outer), title: `inner ${index}`, label: `inner ${index}: ${printed(outer)}`,
    })));
    drawing.append("circle").attr("class", "expected").attr("cx", x(p)).attr("cy", y(expected)).attr("r", 5).append("title").text("posterior vulnerability");
    drawing.append("circle").attr("class", "ring").attr("cx", x(p)).attr("cy", y(worth(prior))).attr("r", 5).append("title").text("prior vulnerability");
    addLabels(drawing, [
        { x: x(0), y: LINE.height - 22, text: values[0], anchor: "start" }, { x: x(1), y: LINE.height - 22, text: values[1], anchor: "end" },
        { x: x(0.5), y: LINE.height - 6, text: `probability of ${values[1]}` }, { x: x(p), y: y(lowest) + 16, text: `prior ${printed(prior[1])}`, isStrong: true },
        { x: x(p) + 9, y: y(near(before)) + 16, text: printed(before), anchor: "start" },
        ...(printed(before) === printed(after) ? [] : [{ x: x(p) + 9, y: y(expected) - 4, text: printed(after), anchor: "start", isStrong: true }]),
        ...y.ticks(5).map((/** @type {number} */ tick) => ({ x: x(0) - 6, y: y(tick) + 5, text: String(tick), anchor: "end" })),
    ]);
    return svg;
}

/**
 * Lines of priors that are worth the same, with what that is.
 * @param {any} drawing
 * @param {Fraction[][]} actions
 * @param {(prior: Fraction[]) => number[]} place
 */
function addLevels(drawing, actions, place) {
    const worths = regions(actions).flat().map((prior) => near(vulnerability(actions, prior)));
    const ticks = scaleLinear([Math.min(...worths), Math.max(...worths)], [0, 1]).ticks(LEVELS);
    const lines = ticks.flatMap((/** @type {number} */ tick) => {
        const value = typedFraction(String(tick));
        return value === null ? [] : levelLines(actions, value).map((line) => ({ text: String(tick), ends: line.map(place) }));
    });
    lines.forEach((/** @type {{ ends: number[][] }} */ { ends: [from, to] }) => addLine(drawing, "level", from, to));
    addLabels(drawing, lines.map((/** @type {{ text: string, ends: number[][] }} */ { text, ends: [from, to] }) => ({
        x: (3 * from[0] + to[0]) / 4, y: (3 * from[1] + to[1]) / 4 + 4, text, isSoft: true,
    })));
}

/** @param {Scene} scene */
function trianglePicture({ values, names, actions, prior, inners }) {
    const width = room();
    const side = Math.min(width, SIDE.most) - 2 * SIDE.edge;
    const height = (side * Math.sqrt(3)) / 2;
    const left = (width - side) / 2;
    const corners = [[left, SIDE.edge + height], [left + side, SIDE.edge + height], [left + side / 2, SIDE.edge]];
    const place = (/** @type {Fraction[]} */ shares) => [0, 1].map((axis) => shares.reduce((all, share, index) => all + near(share) * corners[index][axis], 0));
    const { svg, drawing } = canvas(width, height + 2 * SIDE.edge,
        `Triangle of the priors on ${values.join(", ")}, with the prior and ${inners.length} inners as discs. The tables have the numbers.`);
    const colours = coloursOf(names);
    regions(actions).forEach((polygon, index) => {
        if (polygon.length > 0) {
            drawing.append("polygon").attr("class", "region").attr("fill", colours.get(names[index])).attr("points", polygon.map((corner) => place(corner).join()).join(" "))
                .append("title").text(`here ${names[index]} is best`);
        }
    });
    addLevels(drawing, actions, place);
    drawing.append("polygon").attr("class", "triangle").attr("points", corners.map((corner) => corner.join()).join(" "));
    addDiscs(drawing, inners.map(({ outer, shares }, index) => {
        const [x, y] = place(shares);
        return { x, y, radius: radiusOf(outer), title: `inner ${index}`, label: `inner ${index}: ${printed(outer)}` };
    }));
    const [x, y] = place(prior);
    drawing.append("circle").attr("class", "ring").attr("cx", x).attr("cy", y).attr("r", 5).append("title").text("prior");
    addLabels(drawing, [
        { x: corners[0][0], y: corners[0][1] + 20, text: values[0] }, { x: corners[1][0], y: corners[1][1] + 20, text: values[1] },
        { x: corners[2][0], y: corners[2][1] - 10, text: values[2] }, { x: x - 9, y: y + 5, text: `prior ${prior.map(printed).join(", ")}`, anchor: "end", isStrong: true },
    ]);
    return svg;
}

/** @param {Scene} scene */
export const priorPicture = (scene) => (scene.values.length === 2 ? linePicture(scene) : trianglePicture(scene));
