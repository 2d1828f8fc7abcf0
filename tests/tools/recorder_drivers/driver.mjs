// Makes the calls that stand on standard input, in fields between tabs, of the JavaScript recorder: see tests/tools/recorders.py. A record
// separator stands for a line feed in a field.
import { readFileSync } from "node:fs"
import { Full, NotAccepted, NotCausal, Recording, Refused } from "../../../recorders/domepeeler.mjs"

// Calls that only a language without types can make, and that a trace can't say.
const UNTYPED = [
  () => new Recording("2"),
  () => new Recording(true),
  () => new Recording(2).read(0.5, []),
  () => new Recording(2).read(undefined, []),
  () => new Recording(2).insert(0, "a", 0.5, ["a"]),
  () => new Recording(2).insert(0, "a", "0", ["a"]),
  () => new Recording(2).insert(0, 7, 0, []),
  () => new Recording(2).read(0, ["a", 7]),
  () => new Recording(2).read(0, "ab"),
  () => new Recording(2).read(0, null),
  () => new Recording(2).insert(0, "a", 0, 7),
  () => new Recording(2).receivedClock(0, 1, "01"),
  () => new Recording(2).receivedClock(0, 1, null),
  () => new Recording(2).receivedClock(0, 1, [0, "1"]),
  () => new Recording(2).receivedChanges(0, "ab"),
  () => new Recording(2).receivedChanges(0, 7),
  () => new Recording(2).receivedChanges(0, [["ab"]]),
  () => new Recording(2).delete(0, "a", [], {}),
  () => new Recording(2).read(Symbol("0"), []),
  () => new Recording(2).insert(0, "a", 2n, []),
  () => new Recording(2).insert(0, Symbol("a"), 0, []),
  () => new Recording(2).read(0, [3n]),
  () => new Recording(2).read(0, ["a", , "b"]),
  () => new Recording(2).read(0, Array(3)),
  () => new Recording(2).insert(0, "a", null, []),
  () => new Recording(2).insert(0, "a", NaN, []),
  () => new Recording(2).insert(0, "a", [0], []),
  () => new Recording(2).insert(0, "a", {}, []),
  () => new Recording(2).insert(0, "a", () => 0, []),
  () => new Recording(2).received(0, 1, "1"),
  () => changed().receivedClock(0, 1, [0, 1], null),
  () => new Recording(2).delivered(null),
  () => new Recording(2).delivered("ab"),
  () => new Recording(2).delivered({ 0: [], 2: [] }),
  () => new Recording(2).delivered(new Map([[1, []]])),
  () => new Recording(2).delivered([[], 7]),
  () => new Recording(2).note(7),
  () => new Recording(2).read("1".repeat(41), []),
  () => new Recording(2).delete(0, "a", [], Symbol("x")),
  () => new Recording(2).read(0, ["a b"]),
  () => changed().receivedClock(0, 1, [, 1]),
  () => new Recording(2, null, { weak: true }),
  () => new Recording(2).read("::\x1b\n" + "1".repeat(41), []),
]

function changed() {
  const recording = new Recording(2)
  recording.insert(1, "a", 0, ["a"])
  return recording
}

let recording

async function call(words, changeId = null) {
  const number = Number(words[1])
  switch (words[0]) {
    case "new":
      recording = new Recording(...words.slice(1).map(Number))
      return "ok"
    case "stop":
    case "stop_weak":
      recording = new Recording(number, words.length > 2 ? Number(words[2]) : null, { stop: true, weak: words[0] === "stop_weak" })
      return "ok"
    case "as":
      return call(words.slice(2), words[1])
    case "insert":
      return `ok ${recording.insert(number, words[2], Number(words[3]), words.slice(4), changeId)}`
    case "delete":
      return `ok ${recording.delete(number, words[2], words.slice(3), changeId)}`
    case "read":
      return `ok ${recording.read(number, words.slice(2))}`
    case "view":
      return `ok ${recording.view(number, words.slice(2))}`
    case "received":
      recording.received(number, Number(words[2]), Number(words[3]))
      return "ok"
    case "received_clock":
      recording.receivedClock(number, Number(words[2]), words.slice(4).map(Number), Number(words[3]))
      return "ok"
    case "received_changes":
      recording.receivedChanges(number, words.slice(2))
      return "ok"
    case "clock":
      return `ok ${recording.clock(number).join(" ")}`
    case "delivered":
      recording.delivered(listsOf(words.slice(1)))
      return "ok"
    case "lines":
      return `ok ${recording.lines()}`
    case "note":
      recording.note(words[1])
      return "ok"
    case "warnings":
      return shown(await recording.warnings())
    case "explain":
      return shown((await recording.explain()).split("\n").slice(0, -1))
    case "explain_weak":
      return shown((await recording.explain(null, { weak: true })).split("\n").slice(0, -1))
    case "weak":
      return weak(await recording.judge(null, { weak: true }))
    case "id_of":
      return recording.ids().has(words[1]) ? `ok ${recording.ids().get(words[1])}` : "none"
    case "save":
      await recording.save(words[1].startsWith("file:") ? new URL(words[1]) : words[1])
      return "ok"
    case "judge":
      return "report " + JSON.stringify(await recording.judge())
    case "untyped":
      return UNTYPED[number]()
    default:
      return shown(recording.text().split("\n").slice(0, -1))
  }
}

// Whether it passes where the weak list specification alone is asked for, and if not, the first reason.
function weak(report) {
  if (report.weak && !report.warnings.length) return "passes"
  const verdict = ["verdict", "k", "at", "first", "again"].filter((key) => key in report).map((key) => report[key]).join(" ")
  return `fails ${[...report.warnings, verdict][0]}`
}

const shown = (lines) => lines.map((line) => `| ${line}\n`).join("") + "ok"

// Lists of names, between which stands a word `/`.
function listsOf(words) {
  const lists = [[]]
  for (const word of words) {
    if (word === "/") lists.push([])
    else lists.at(-1).push(word)
  }
  return lists
}

for (const line of readFileSync(0, "utf8").split("\n").slice(0, -1)) {
  try {
    console.log(await call(line.replaceAll("\x1e", "\n").split("\t")))
  } catch (why) {
    if (why instanceof NotAccepted) {
      console.log(`stopped ${why.message.replaceAll("\n", " / ")}`)
      continue
    }
    const kind = why instanceof Full ? "full" : why instanceof NotCausal ? "uncausal" : why instanceof Refused ? "refused" : "failed"
    console.log(`${kind} ${why.message}`)
  }
}
