// The picture of a story: tools/lib/picture.js, tools/lib/drawing.js.

import assert from "node:assert";
import path from "node:path";
import {test} from "node:test";

import {coordinate, svgText, wrapped, xml} from "../lib/drawing.js";
import {LEFT, SHAPE} from "../lib/layout.js";
import {pictureOf} from "../lib/picture.js";
import {tellStory} from "../lib/story.js";
import {LOOP, examples, textOf, told} from "./shared.js";

const COORDINATES = [[0, "0"], [10, "10"], [2.5, "2.5"], [100.1, "100.1"], [1 / 3, "0.33"], [0.125, "0.12"], [0.375, "0.38"], [-2.5, "-2.5"],
                     [1, "1"], [0.5, "0.5"], [100, "100"]];
const WORDS = [["", ""], ["plain", "plain"], ["a<b>&", "a&lt;b&gt;&amp;"], ["\u0007\t", "??"], ["é", "é"],
               ["a<b>&\u0001…", "a&lt;b&gt;&amp;?…"]];
const WRAPPED = [["one two three", 7, ["one two", "three"]], ["one", 1, ["one"]], ["a b c", 5, ["a b c"]]];

for (const [x, said] of COORDINATES) test("The coordinate " + x, () => assert.strictEqual(coordinate(x), said));
for (const [words, said] of WORDS) test("The words " + JSON.stringify(words), () => assert.strictEqual(xml(words), said));
for (const [words, most, lines] of WRAPPED) test("Wrapped: " + words, () => assert.deepStrictEqual(wrapped(words, most), lines));

function picture(session, shape) { return pictureOf(tellStory("the session", told(session)), "the session", shape); }

for (const [name, [session, transcript]] of Object.entries(examples()).filter(([one]) => !one.includes("exercises"))) {
  test("The picture of " + name + " is the stored one", () => {
    const file = path.basename(name) + ".its", drawn = told(session, transcript);
    assert.strictEqual(pictureOf(tellStory(file, drawn), file, {}).svg, textOf(name + ".svg", "utf8"));
  });
}

test("The frame and the drawings of the rows are the picture without a legend", () => {
  const {svg, frame, drawings, rows} = picture(textOf("sessions/echo.its"), {legend: false});
  assert.strictEqual(drawings.length, rows.length);
  assert.strictEqual(frame.replace("</svg>\n", drawings.join("\n") + "\n</svg>\n"), svg);
});

test("Each piece has its spot, in the order in which it is drawn", () => {
  const {spots, rows} = picture("LOAD U J -\n100/ 254000000100\nGO 100\nTICK 0 100\nEXAM 0 100 1\nTICK 1 3\n", {legend: false});
  assert.strictEqual(rows.length, 1);
  assert.deepStrictEqual(spots.map(({piece, x, width}) => [piece.letter || piece.kind, x, width]),
                         [["made", 150, 16], ["*", 166, 320], ["disturb", 486, 16], ["-", 502, 48]]);
});

test("A session without pieces has an empty row", () => {
  assert.deepStrictEqual(picture("END\n", {legend: false}).spots, []);
});

test("Turned text", () => {
  assert.strictEqual(svgText(1, 2, "x", "small", true), '<text x="1" y="2" class="small" transform="rotate(-90 1 2)">x</text>');
});

for (const shape of [{}, {brief: true}, {legend: false}, {span: 560, tallest: 365, widest: 40, enlarged: 2}]) {
  test("The shape " + JSON.stringify(shape), () => {
    const story = tellStory("x", told(LOOP + "TICK 0 1000\n".repeat(3), "J 0\n" + "T 0 1000*\n".repeat(3)));
    const drawn = pictureOf(story, "<x>", shape), {legend, enlarged} = {...SHAPE, ...shape};
    assert.deepStrictEqual([drawn.svg.includes("disturbs the job"), drawn.svg.includes("the call waits")], [false, legend]);
    const [, width, inside] = /<svg xmlns="[^"]*" width="([0-9.]+)" [^>]*viewBox="0 0 ([0-9.]+) /.exec(drawn.svg);
    assert.strictEqual(Number(width), Number(coordinate(Number(inside) * enlarged)));
  });
}

test("The place of a tick", () => {
  const {spots} = pictureOf(tellStory("x", told(LOOP + "TICK 0 4\n", "J 0\nT 0 4*\n")), "x", {});
  assert.deepStrictEqual(spots.filter(({piece}) => piece.letter).map(({x, width}) => [x, width]), [[LEFT + 16, 64]]);
});
