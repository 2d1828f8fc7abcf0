// For Node's own test runner: a test whose recording is judged at its end.
//
//     import { test } from "node:test"
//     import { recorded } from "domepeeler/node_test"
//
//     test("two users", recorded(2, (recording) => {
//       const n = recording.insert(0, "a", 0, ["a"])
//       ...
//     }))
//
// Where the recording is not accepted, or nothing was recorded, the test fails, and its error has the explanation and the path of the
// saved trace. What hooks record behind the body is judged too; what is recorded or refused later still, as by a promise that nobody
// awaits, fails the process, and so does a test that ends the process before it is judged. Where the test fails by itself, its
// diagnostics have them, of an accepted recording too. Where it passes, the trace that it saved before is removed, and what the verdict
// may hide stands in its diagnostics. But that a call was refused fails it; behind its hooks, if an update was not causal and has not come by
// then. For a property of fast-check or another library, let the property end with:
//     await accepted(recording, "failed.trace") // which judges what is recorded by then
//
// It is handed to test() itself: a test that answers it, as by `() => recorded(2, ...)`, would run nothing, and fails. One that makes it and
// does not answer it, as by `() => { recorded(2, ...) }`, is told of on standard error when the process ends; so is what is made elsewhere and never
// called, unless some tests alone were to run. It is no error, since a test may be skipped. The reporters `dot` and `junit` hush it.
//
// With { stop: true } as a last argument of recorded() the test fails in the call that answered wrong, and its error's stack begins there.
//
// An editor with a server that orders changes promises the weak list specification alone. With { weak: true } as a last argument of
// both, a recording is taken for accepted where weak holds; `contents`, `position`, `doubled` and `refused 2` still fail.
import { executionAsyncResource } from "node:async_hooks"
import { createHash } from "node:crypto"
import { readFileSync, readlinkSync } from "node:fs"
import { mkdir, readFile, readdir, rm, rmdir, stat, writeFile } from "node:fs/promises"
import { basename, dirname, join, relative, resolve } from "node:path"
import { NotAccepted as Stopped, Recording } from "./domepeeler.mjs"

const FOLDER = "failed_traces", MOST_LETTERS = 150
const RUNS = ".runs" // beside traces: for each run a folder, with a mark for each trace that it has saved
const MARK = ".mark", DAY = 24 * 60 * 60 * 1000 // in milliseconds
const SPACE = spaceOfProcesses()
const RUN = nameOf(process.env.NODE_TEST_CONTEXT?.startsWith("child") ? process.ppid : process.pid) // Node's runner begins a process for each file
const WEAK_ALONE = "weak holds, strong doesn't"
const NEVER_CAME = "a call was refused, and what it says never came: " // so the recorder says of what may come still
const FIRST_LINES = 2 // of each trace: its version, and how many replicas there are
const NEVER_CALLED = "recorded() makes a function for test(), and this one was never called, so nothing was recorded: write " +
  "test(name, recorded(2, (recording) => ...)), without `() =>` before it"
const UNCALLED = "what recorded() made here was never called, so it recorded nothing: was its test skipped, or is it not handed to test()?"
const CHOOSES = process.execArgv.some((word) => /^--test-(name-pattern|skip-pattern|only)/.test(word)) // whether some tests alone are to run
const uncalled = new Map() // by function that recorded() made, and that was never called: the test within which it did, and an error with the line
const named = new Map() // by name of a file: how many tests of this process have had it
const warned = new Set() // paths of properties of which a recording has hidden something
const watched = new Map() // by recording: its test, and its state when it was judged, if it was

process.on("exit", () => {
  const within = [...uncalled.values()].filter(({ test }) => test), others = [...uncalled.values()].filter(({ test }) => !test)
  for (const { test, neverCalled } of within) {
    console.error(`${test}: ${UNCALLED}\n${linesOf(neverCalled)}`)
  }
  if (others.length) {
    const more = others.length > 1 ? ` (and ${others.length - 1} more like it)` : ""
    console.error(`domepeeler: ${UNCALLED}${more}\n${linesOf(others[0].neverCalled)}`)
  }
  for (const [recording, { test, state }] of watched) {
    if (isSame(stateOf(recording), state)) continue
    const why = !state ? "the process ended within the test, so what it recorded was not judged" : recording.lines() === state.lines ?
      "a call was refused when the test had ended, so what it says was not judged: is an await missing?" :
      "something was recorded when the test had ended, so it was not judged: is an await missing?"
    console.error(`${test}: ${why}`)
    process.exitCode ||= 1
  }
})

function linesOf(error) {
  return error.stack.replace(/^.*\n/, "")
}

/** The recording is not accepted, or was not judged. */
export class NotAccepted extends Stopped {
  constructor(told) {
    super(told)
    this.name = "NotAccepted"
    this.stack = told // which lines of this helper threw it helps nobody
  }
}

/** A function for test(): it begins a recording of so many replicas, hands it to the body, and has it judged when that has ended; with
 * `weak` it passes where weak holds; with `stop` it fails in the call that answered wrong. A promise of it is broken: who awaits it has not
 * called it. */
export function recorded(replicas, body, { folder = FOLDER, weak = false, stop = false } = {}) {
  const run = async (context) => {
    uncalled.delete(run)
    const recording = new Recording(replicas, null, { stop, weak: stop && weak })
    const test = context.fullName ?? context.name // with the suites' names where Node tells them
    watched.set(recording, { test })
    const path = resolve(folder, fileName(test))
    const tell = (told) => `${test}: ${told}`.split("\n").forEach((line) => context.diagnostic(line)) // TAP shows each as one line
    const judge = async (isOver) => {
      const state = stateOf(recording)
      const { told, warnings, isAlone } = await judged(recording, path, weak, { isOver, isOfRun: true })
      if (told || state.lines === FIRST_LINES) watched.delete(recording) // a test that fails has told enough
      if (told) throw new NotAccepted(told)
      if (isAlone) tell(WEAK_ALONE)
      if (state.lines === FIRST_LINES) throw new NotAccepted(warnings.join("\n"))
      watched.set(recording, { test, state })
      warnings.forEach(tell)
      await removeSaved(path)
    }
    try {
      await body(recording, context)
    } catch (why) {
      tell((await judged(recording, path, weak, { hasFailed: true, known: why?.message, isOfRun: true })).told)
      watched.delete(recording)
      throw why
    }
    await judge(!context.after)
    const isJudged = (state) => isSame(stateOf(recording), state) && !state.refusals
    context.after?.(() => isJudged(watched.get(recording)?.state) || judge(true)) // the last of the hooks
  }
  const neverCalled = new Error(NEVER_CALLED) // its stack has the line that made it
  const within = executionAsyncResource() // of Node's own, while the body of a test runs up to where it first waits
  const isWithin = within?.constructor?.name === "Test"
  if (isWithin || !CHOOSES) uncalled.set(run, { test: isWithin ? within.name : null, neverCalled })
  return Object.assign(run, {
    then(kept, broken) {
      uncalled.delete(run) // the test fails by this
      return Promise.reject(neverCalled).then(kept, broken)
    },
  })
}

/** A promise that is kept where the recording is accepted, or with `weak` where weak holds, and lacks nothing that a refused call says; else it is
 * saved, and the error says what is wrong with it. Of the first one by this path that may hide something Node warns. */
export async function accepted(recording, path, { weak = false } = {}) {
  const { told, warnings } = await judged(recording, path, weak)
  if (told) throw new NotAccepted(told)
  if (!warnings.length || warned.has(path)) return
  warned.add(path)
  process.emitWarning(`a recording of ${path} is accepted, and may hide something: ${warnings[0]}`)
}

// How many lines a recording has, and what is told of calls that were refused.
function stateOf(recording) {
  return { lines: recording.lines(), refusals: recording.refusals().join("\n") }
}

function isSame(one, other) {
  return one.lines === other?.lines && one.refusals === other?.refusals
}

// The verdict on a recording in words, if these aren't known, which is then saved; nothing where it passes and no call was refused, unless its
// test has failed by itself. Until all is over, an update that waits for another may come. And of what a verdict that passes warns, and whether
// it passes since weak holds, though strong doesn't.
async function judged(recording, path, weak, { hasFailed = false, known = "", isOver = true, isOfRun = false } = {}) {
  let told, warnings = []
  try {
    const report = await recording.judge(null, { weak }), isAccepted = report.verdict === "accepted"
    const isPassing = isAccepted || (weak && report.weak === true)
    warnings = report.warnings
    const refused = recording.refusals().filter((line) => isOver || !line.startsWith(NEVER_CAME))
    if (isPassing && !hasFailed && !refused.length) return { told: "", warnings, isAlone: !isAccepted }
    const verdict = isAccepted ? "accepted" : isPassing ? `${report.verdict}, and weak holds` : `not accepted: ${report.verdict}`
    told = await recording.explain(null, { weak }).catch((why) => `The recording is ${verdict}. There is no explanation: ${why.message}`)
    if (isPassing && refused.length) told = `${isAccepted ? "accepted" : WEAK_ALONE}, but this is no pass: ${refused[0]}\n\n${told}`
  } catch (why) {
    told = `The recording was not judged: ${why.message}`
  }
  const words = told.trimEnd() === known ? "" : `${told.trimEnd()}\n\n`
  return { told: words + await saved(recording, resolve(path), isOfRun), warnings }
}

async function saved(recording, asked, isOfRun) {
  let path = asked
  try {
    await makeFolder(dirname(path))
    if (isOfRun) path = await marked(path)
    await recording.save(path)
  } catch (why) {
    return `The trace can't be saved in ${shown(path)}: ${why.code}. It is:\n${recording.text()}`
  }
  return `The trace is saved: ${shown(path)}`
}

// A path for a message, which begins no line and sends nothing to a terminal.
function shown(path) {
  return path.replace(/[\p{C}\p{Zl}\p{Zp}]/gu, (letter) => `\\u{${letter.codePointAt(0).toString(16)}}`)
}

// The name of a run, by the process that began it: its number, when it was begun, and in which space of such numbers, as a container has its own.
function nameOf(process) {
  return [process, stateOfProcess(process).begun, SPACE].join("-")
}

// The state of a process, as a letter, and when it was begun, in ticks of the system; of one that there is not, or of a system that does not say,
// no letter and 0.
function stateOfProcess(process) {
  try {
    const told = readFileSync(`/proc/${process}/stat`, "latin1").replace(/^.*\) /s, "").split(" ")
    return { letter: told[0], begun: told[19] }
  } catch {
    return { letter: "", begun: "0" }
  }
}

function spaceOfProcesses() {
  try {
    return readlinkSync("/proc/self/ns/pid").match(/[0-9]+/)[0]
  } catch {
    return "0"
  }
}

// Whether a run of this name has not ended. Of one in another space nobody here knows that: it counts as at work for a day. A process that has ended
// may be left of which nobody has taken notice.
async function isAtWork(run, folder) {
  const [process, begun, space] = run.split("-")
  if (space !== SPACE) return Date.now() - (await stat(folder)).mtimeMs < DAY
  const { letter, begun: since } = stateOfProcess(process)
  return begun === "0" ? isThere(Number(process)) : since === begun && !"XZ".includes(letter)
}

function isThere(number) {
  try {
    return process.kill(number, 0)
  } catch (why) {
    return why.code === "EPERM"
  }
}

// Where this run saves a trace, which it marks as its own: by another name where a run that is still at work has marked it. Each marks it before
// it looks, so that of two at the same time none takes what the other saves. Where it can't be marked, the trace is saved all the same.
async function marked(path) {
  const other = path.replace(/\.trace$/, `-run${RUN}.trace`)
  await mark(path)
  if (!await isOfAnother(path)) return path
  await unmark(path)
  await mark(other)
  return other
}

async function mark(path) {
  const file = markOf(path, RUN)
  const make = () => mkdir(dirname(file), { recursive: true }).then(() => writeFile(file, ""))
  await make().catch(make).catch(() => {}) // another process of this run may just have removed the empty folder
}

function markOf(path, run) {
  return join(dirname(path), RUNS, run, `${basename(path, ".trace")}${MARK}`)
}

// Removes this run's mark, and the folders of marks where they are empty now.
async function unmark(path) {
  const file = markOf(path, RUN)
  await rm(file, { force: true }).catch(() => {})
  for (const empty of [dirname(file), dirname(dirname(file))]) await rmdir(empty).catch(() => {})
}

// Whether another run that is still at work has marked this trace. What ended ones have marked is theirs no longer.
async function isOfAnother(path) {
  const folder = join(dirname(path), RUNS)
  const runs = (await readdir(folder, { withFileTypes: true }).catch(() => [])).filter((one) => one.isDirectory()).map(({ name }) => name)
  for (const run of runs.filter((name) => /^[0-9]+-[0-9]+-[0-9]+$/.test(name) && name !== RUN)) {
    if (!await isAtWork(run, join(folder, run)).catch(() => false)) await forget(join(folder, run))
    else if (await stat(markOf(path, run)).then(() => true, () => false)) return true
  }
  return false
}

// Removes the marks of a run that has ended.
async function forget(folder) {
  const marks = (await readdir(folder, { withFileTypes: true }).catch(() => [])).filter((one) => one.isFile() && one.name.endsWith(MARK))
  for (const { name } of marks) {
    const file = join(folder, name)
    if (/^[0-9]*$/.test(await readFile(file, "latin1").catch(() => "none"))) await rm(file).catch(() => {}) // else it is none
  }
  await rmdir(folder).catch(() => {})
}

// Removes what this run, or one that has ended, saved of a test that passes now.
async function removeSaved(path) {
  const stem = `${basename(path, ".trace")}-run`
  const isOfRun = (name) => name.startsWith(stem) && /^[0-9]+-[0-9]+-[0-9]+\.trace$/.test(name.slice(stem.length))
  const others = (await readdir(dirname(path)).catch(() => [])).filter(isOfRun).map((name) => join(dirname(path), name))
  for (const trace of [path, ...others]) {
    if (await isOfAnother(trace)) continue
    for (const left of [trace, `${trace}.lines`]) await rm(left, { force: true }).catch(() => {}) // most often there is none
    await unmark(trace)
  }
}

// Makes the folder, which Git then passes over. Another folder that is there already may hold what Git is to see.
async function makeFolder(folder) {
  const isOurs = basename(folder) === FOLDER || await stat(folder).then(() => false, () => true)
  await mkdir(folder, { recursive: true })
  if (!isOurs) return
  const ignored = join(folder, ".gitignore")
  await writeFile(ignored, "*\n", { flag: "wx" }).catch(async (why) => {
    if (why.code === "EEXIST") return
    await rm(ignored, { force: true }).catch(() => {}) // half of it would be taken for a file of yours
    throw why
  })
}

// The name of a file that no other test has which is run in this folder.
function fileName(test) {
  const whole = `${relative("", process.argv[1] ?? "")}--${test}`
  const isPlain = /^[A-Za-z0-9_.]+(\/[A-Za-z0-9_.]+)*--[A-Za-z0-9_.]+$/.test(whole) && whole.length <= MOST_LETTERS
  const letters = whole.replace(/[^A-Za-z0-9_.]+/g, "-").slice(0, MOST_LETTERS).replace(/^-+|-+$/g, "")
  const name = isPlain ? whole.replaceAll("/", "-") : `${letters}-${createHash("sha256").update(whole).digest("hex").slice(0, 12)}`
  const before = named.get(name) ?? 0
  named.set(name, before + 1)
  return `${name}${before ? `-${before + 1}` : ""}.trace`
}
