// Records what the replicas of a list editor do and answer, and has Domepeeler judge it.
//
// Copy this file into your project, or install the package in recorders/javascript, which is made of it. It needs no module;
// save(), judge(), warnings() and explain() need Node.js. docs/recording.md says where the calls go.
//
//     const recording = new Recording(2)
//     const n = recording.insert(0, "a", 0, ["a"]) // replica 0 inserted a at position 0, and its list is now: a
//     recording.received(1, 0, n)                  // that operation was applied at replica 1
//     recording.delete(1, "a", [])                 // replica 1 deleted a, and its list is now empty
//     recording.read(0, ["a"])                     // replica 0 read its list
//     recording.view(0, ["a"])                     // replica 0 showed this part of its list
//     recording.delivered([[], []])                // by now all has arrived everywhere, and these are the lists
//     await recording.save("session.trace")        // the trace as a file, for tools/explain
//     const { verdict, warnings } = await recording.judge() // asks the program
//     if (verdict !== "accepted" || warnings.length) throw new Error(await recording.explain()) // which says it in words
//
// judge() answers, and never fails where the recording is wrong: a test that doesn't look at its answer passes.
//
// An editor with a server that orders changes (Jupiter and its kin) promises the weak list specification alone, and is right with
// `refused 3` or more. For such a one let the test end so:
//
//     const { weak, warnings } = await recording.judge(null, { weak: true })
//     if (!weak || warnings.length) throw new Error(await recording.explain(null, { weak: true }))
//
// Then a recording passes where weak holds; `contents`, `position`, `doubled` and `refused 2` still fail, and so do warnings.
//
// Where updates have vector clocks, or ids, `receivedClock` and `receivedChanges` write the receipts, and refuse what is not causal.
// Where a log is read, `at` says from which of its lines the next calls come. `note` keeps a word for the whole recording, as "seed 17".
//
// `new Recording(2, null, { stop: true })` judges the session after each call that takes a list, and throws NotAccepted in the call that
// answered wrong; with `weak: true` too, in that after which weak doesn't hold.
//
// Each call that a trace can't say throws Refused, or Full at a limit, and leaves the recording as it was. When the program ends by itself it says
// on standard error if nothing has judged a recording, saved it or taken its text since something was recorded or refused; and if one is wrong
// that is judged after each call. A signal hides that, and so does a worker that is ended.

const MOST_REPLICAS = 16, MOST_ENTRIES = 16384, MOST_INSERTS = 4096
const MOST_NAMES = 4096, MOST_PLACES = 262144, MOST_POSITION = 4294967295
const MOST_BYTES = 32
const NAME = /^[A-Za-z0-9_.-]{1,32}$/
const WITH_SIGNS = /^[A-Za-z0-9_.@,:/-]+$/ // an id that is translated
const UUID = /^[0-9A-Fa-f]{8}(-[0-9A-Fa-f]{4}){3}-[0-9A-Fa-f]{12}$/
const MOST_PRINTED = 1 << 28 // bytes: no report is as long
const ONE_LOG = "one replica's log is no recording: merge the logs first"
const NOT_STOPPED = "one replica's log can't be judged after each call, but only when the logs are merged"
const MORE_CHANGES = "; if the update carried more than one change, say how many (`changes`)"
const MOST_CALLERS = 3, MOST_FRAMES = 50 // of an entry: callers that are kept, and frames that are looked at for them
const MOST_STACKS = 1000 // that are remembered
const MOST_LINKS = 40 // that lead on from one to the next
const HEAD_LINES = 2 // of a trace, before its entries
const MOST_NOTES = 20, MOST_LETTERS = 200 // of a recording, and of a note
const MOST_DELIVERED = 100 // calls of delivered() of which the tool is told
const MOST_TRIES = 100 // of saving where another process saves too
// What is no part of a printable line.
const NO_NOTE = /[\0-\x1f\x7f-\x9f\u2028-\u202e\u2066-\u2069]|[\ud800-\udbff](?![\udc00-\udfff])|(?<![\ud800-\udbff])[\udc00-\udfff]/
const MOST_SHOWN = 40 // letters of a wrong value in an error
const COMMAND = /^ *(?=::|##)/ // stands before the signs with which a line of a CI service's commands begins
const MOST_WARNED = 5 // deletes, or inserts, that are warned of one by one
const MOST_LACKED = 3 // changes that are warned of one by one of those that a replica lacks, or has made nothing of
const LINE = /\bline (\d+)(?=[,):]| of the trace,| \(\d+ recv )/g // a line of the trace in the explainer's words
const LAST = "\nThe list specifications\n" // the title of the last section there
const WARNINGS = /^What this verdict may hide\n(?:  .*\n)*/m // a section there
const NAMED = /\((?:in )?line (\d+)\)/g // a line in a warning, whose place is put behind it
// The statement for a debugger.
const STATEMENT = /^(  stop before line (\d+) of the trace, .*)\n  In [A-Z][A-Za-z ]*, put this code right before .*\n.*/gm
// A line of a stack, with the path or the URL of a file, and the line in it.
const FRAME = /^ +at (?:async |.*\()?((?:[a-z]{2,}:\/\/|\/|[A-Za-z]:[\\/]).*:\d+):\d+\)?$/
const OWN = String(import.meta.url)
// This file, and the helper that calls a test; as URLs, and as the paths that test runners with modules of their own have in stacks.
const OWN_FILES = [OWN, OWN.replace(/[^/]*$/, "javascript/node_test.mjs")].flatMap((url) => [url, decodeURI(url.replace("file://", ""))])

// By number of a recording, of those that nobody has judged, saved or taken the text of since something was recorded or refused: where the last line
// came from, and where it was judged after each call and a call was wrong, what is.
const unread = new Map()
let begun = 0
const { process: own } = globalThis
own?.on?.("exit", () => {
  const left = [...unread.values()], wrong = left.filter(({ told }) => told), others = left.filter(({ told }) => !told)
  const tell = (words, { place }) => console.error(`domepeeler: ${words}` + (place ? `; the last line was recorded by ${placedHere(place)}` : ""))
  if (others.length) {
    const [which, saved, taken] = others.length === 1 ? ["a recording", "saved it", "taken its text"]
      : [`${others.length} recordings`, "saved them", "taken their texts"]
    tell(`nothing has judged ${which}, ${saved} or ${taken} since something was recorded or refused`, others.at(-1))
  }
  if (wrong.length) {
    const which = wrong.length === 1 ? "a recording that was judged after each call is wrong"
      : `${wrong.length} recordings that were judged after each call are wrong, the last one`
    tell(`${which}: ${wrong.at(-1).told}`, wrong.at(-1))
  }
})

function placedHere(place) {
  return own.getBuiltinModule ? placing(modulesAtOnce())(place) : place
}

/** No trace can say this. */
export class Refused extends Error {}

/** The replica has reached a limit of traces: end this session, and begin another. */
export class Full extends Refused {
  isWrong = false // whether the response has more names than were inserted: it is wrong, whatever comes, and a refused call that is told of
}

/** An update was applied at a replica that lacks a change which the update's author had seen. */
export class NotCausal extends Refused {}

/** With `stop`: the session is not accepted up to here, or with `weak` too, weak doesn't hold. Says what explain() says. */
export class NotAccepted extends Error {}

/** A session of so many replicas; with `only`, the log that this one replica keeps on its own machine.
 *
 * With `stop` the session is judged after each call that takes a list. The first after which it is not accepted, or with `weak` too, weak
 * doesn't hold, throws NotAccepted; its line is recorded. Later calls throw that again, and record nothing. `weak` is for an editor that
 * promises the weak list specification alone. A program that can't be run throws as in judge(). It needs Node.js from 20.16 or 22.3 on. */
export class Recording {
  #lines
  #callers = [] // of each entry: the lines of code from which it was recorded, or the log's line
  #logLine = null // the log's line whose entries are recorded now, if any
  #hasLog = false // whether some entries came from a log
  #stacks = new Map() // by stack: these lines, so that most equal ones are kept once
  #replicas
  #only
  #ids = new Map() // by name: the id that has this name, where another id might come to the same name
  #short = new Map() // by id: its name, where that is a shorter one
  #changes = new Map() // by the id of a change: its operations, of one author
  #notes = []
  #delivered = [] // of each call of `delivered`, the first and the last line of the trace that it wrote
  #refused = 0 // how many calls that record were refused, but at a limit, and but for those that were not causal
  #firstRefused = "" // the words of the first of them
  #open = new Map() // by replica and author the last change that was not causal there, if it has not come since, and why it was not

  #number = begun++ // of `unread`
  #stop
  #weak
  #stopped = "" // what is wrong with the session, in words

  constructor(replicas, only = null, { stop = false, weak = false } = {}) {
    if (!whole(replicas, 1, MOST_REPLICAS)) {
      throw new Refused(Number.isInteger(replicas) ? `replicas are 1 to ${MOST_REPLICAS}, not ${replicas}`
        : notWhole("number of replicas", replicas, 1, MOST_REPLICAS))
    }
    this.#lines = ["trace 1", `replicas ${replicas}`]
    // changes: its operations that insert or delete; others: how many operations of each it has received; pasts: the same at each
    // operation of its own
    const replica = () => ({ entries: 0, operations: 0, inserts: 0, places: 0, changes: [], others: Array(replicas).fill(0), pasts: [] })
    this.#replicas = Array.from({ length: replicas }, replica)
    if (only !== null) this.#known(only)
    this.#only = only
    if (stop && only !== null) throw new Refused(NOT_STOPPED)
    if (weak && !stop) throw new Refused("a recording takes `weak` only with `stop`: else give it to judge() and explain()")
    if (stop && !globalThis.process?.getBuiltinModule) throw new Error("`stop` needs Node.js from 20.16 or 22.3 on")
    this.#stop = stop
    this.#weak = weak
  }

  /** What is recorded from now on comes from this line of this file, a log's: `save` and `explain` name it, and not the lines of your
   * code. The file is a path or a URL. Without a file, from your code again. */
  at(file = null, line = 1) {
    const path = file?.href ?? file
    if (path !== null && typeof path !== "string") throw new Refused(`a file is a path or a URL, not ${told(file)}`)
    if (!whole(line, 1, MOST_POSITION)) throw new Refused(notWhole("line", line, 1, MOST_POSITION, " of a file"))
    this.#logLine = path === null ? null : [`${path}:${line}`]
  }

  /** The replica inserted the name at the position and then had this list. Answers the operation's number. The change's id is for
   * receivedChanges(). */
  insert(replica, name, position, response, changeId = null) {
    return this.#answered(Recording.prototype.insert, () => this.#operation(replica, "ins", response, name, position, changeId))
  }

  /** The replica deleted the name and then had this list. Answers the operation's number. The change's id is for
   * receivedChanges(). */
  delete(replica, name, response, changeId = null) {
    return this.#answered(Recording.prototype.delete, () => this.#operation(replica, "del", response, name, null, changeId))
  }

  /** The replica read its list. Answers the operation's number. */
  read(replica, response) {
    return this.#answered(Recording.prototype.read, () => this.#operation(replica, "read", response))
  }

  /** The replica showed this part of its list, the window of an editor say. Answers the operation's number. */
  view(replica, part) {
    return this.#answered(Recording.prototype.view, () => {
      const n = this.#operation(replica, "view", part)
      this.#lines[0] = "trace 2"
      return n
    })
  }

  /** The author's operation n, and with it all that the author had seen by then, was applied at the replica. */
  received(replica, author, n) {
    this.#goOn(Recording.prototype.received)
    this.#noting(() => this.#recordReceived(replica, author, n))
  }

  #recordReceived(replica, author, n) {
    this.#acts(replica)
    this.#known(author)
    if (!whole(n, 1, MOST_POSITION)) {
      throw new Refused(notWhole("operation number", n, 1, MOST_POSITION))
    }
    this.#ofAnother(replica, author)
    const have = this.#replicas[author].operations
    if (n > have && this.#only === null) {
      throw new Refused(`${author}.${n} cannot have arrived: replica ${author} has ${have} operations so far`)
    }
    this.#room(replica)
    this.#receipt(replica, author, n)
    this.#close(replica)
  }

  /** The author's update with this vector clock was applied at the replica: it carries the last of the author's changes that the clock
   * counts, or so many of the last. The clock has for each replica how many of its inserts and deletes the author had seen, its own
   * with the carried ones among them: a list, a Map by replica, or an object. Writes the receipt, unless the replica has it already. */
  receivedClock(replica, author, clock, changes = 1) {
    this.#goOn(Recording.prototype.receivedClock)
    this.#noting(() => this.#recordReceivedClock(replica, author, clock, changes))
  }

  #recordReceivedClock(replica, author, clock, changes) {
    this.#acts(replica)
    this.#known(author)
    this.#ofAnother(replica, author)
    const counts = this.#counts(clock)
    if (!counts[author]) throw new Refused(`this is an update of replica ${author}, but its clock counts no change of replica ${author}`)
    if (!whole(changes, 1, counts[author])) {
      throw new Refused(Number.isInteger(changes)
        ? `an update carries 1 to ${counts[author]} of the changes that its clock counts, not ${changes}`
        : notWhole("number of changes", changes, 1, counts[author]))
    }
    const carried = this.#replicas[author].changes.slice(counts[author] - changes, counts[author]).map((n) => [author, n])
    this.#take(replica, carried, counts.map((count, other) => (count ? this.#replicas[other].changes[count - 1] : 0)))
  }

  /** An update that carries the changes with these ids, and no others, was applied at the replica. Writes a receipt for each author of
   * them, unless the replica has it already. */
  receivedChanges(replica, changeIds) {
    this.#goOn(Recording.prototype.receivedChanges)
    this.#noting(() => this.#recordReceivedChanges(replica, changeIds))
  }

  #recordReceivedChanges(replica, changeIds) {
    this.#acts(replica)
    this.#inOneRecording()
    if (typeof changeIds === "string" || typeof changeIds?.[Symbol.iterator] !== "function") {
      throw new Refused("an update carries a list or a set of ids")
    }
    const carried = []
    for (const changeId of changeIds) {
      checkId(changeId)
      if (!this.#changes.has(changeId)) throw new Refused(`no change with the id ${quoted(changeId)} has been recorded`)
      for (const change of this.#changes.get(changeId)) carried.push(change)
    }
    this.#take(replica, carried, null)
  }

  /** By now everything has arrived everywhere, and these are the lists that the replicas show: an array, or a Map or an object by replica.
   * Writes for each replica the receipts that are missing, and a read with its list: what an editor has lost, or still holds back, is
   * then missing there. */
  delivered(lists) {
    this.#answered(Recording.prototype.delivered, () => this.#recordDelivered(lists))
  }

  #recordDelivered(lists) {
    if (this.#only !== null) {
      throw new Refused("one replica's log can't say that everything has arrived: the others are recorded elsewhere")
    }
    const shown = this.#shown(lists), before = this.#mark()
    try {
      shown.forEach((names, replica) => {
        this.#replicas.forEach(({ changes }, author) => {
          const last = changes.at(-1) ?? 0
          if (author === replica || last <= this.#replicas[replica].others[author]) return
          this.#room(replica)
          this.#receipt(replica, author, last)
        })
        this.#said(replica, "read", names, null, null, null)
      })
    } catch (why) {
      this.#backTo(before)
      throw why
    }
    this.#delivered.push([before.lines + 1, this.#lines.length])
    for (const one of this.#open.values()) one.n = Infinity // it stays open: none of these receipts brought it
  }

  /** Keeps a word of yours for the whole recording, as "seed 17": one line of 1 to 200 printable characters. `save` writes it beside the
   * trace, and `explain` tells it. A recording takes 20. */
  note(text) {
    if (typeof text !== "string" || !text || NO_NOTE.test(text) || [...text.slice(0, 2 * MOST_LETTERS + 1)].length > MOST_LETTERS) {
      throw new Refused(`a note is one line of 1 to ${MOST_LETTERS} printable characters`)
    }
    if (this.#notes.length === MOST_NOTES) throw new Refused(`a recording has ${MOST_NOTES} notes, the most that it takes`)
    this.#notes.push(text)
  }

  /** How many lines the text has so far: 2 before the first entry. */
  lines() {
    return this.#lines.length
  }

  /** That calls were refused, a line each, if what they say was not recorded later. */
  refusals() {
    const [open] = [...this.#open.values()].sort((a, b) => a.replica - b.replica || a.author - b.author), calls = this.#refused
    return [
      ...(calls === 1 ? [`a call was refused, so what it says is not recorded: ${this.#firstRefused}`] : []),
      ...(calls > 1 ? [`${calls} calls were refused, so what they say is not recorded; the first: ${this.#firstRefused}`] : []),
      ...(open ? [`a call was refused, and what it says never came: ${open.words}`] : []),
    ]
  }

  /** How many inserts and deletes of each replica this one has: the vector clock of an update that it makes now. */
  clock(replica) {
    this.#acts(replica)
    this.#inOneRecording()
    return this.#has(replica).map((have, other) => upTo(this.#replicas[other].changes, have))
  }

  /** By name in the trace the id that has this name, for each id that is no name itself; a Map. */
  ids() {
    return new Map([...this.#short].map(([given, name]) => [name, given]))
  }

  /** The trace; of one replica's log the text that merge.py takes. */
  text() {
    unread.delete(this.#number)
    return this.#text()
  }

  /** Writes the text into a file of this name; and first, into one with `.lines` behind the name, how many lines it has, so that the
   * tools notice where the end of the file is lost, your notes, and from where in your code or log each line was recorded. Each file
   * appears whole, or not at all. A second recording that is saved under the same name takes the place of the first, without a word: give each
   * that you want to keep its own. A pipe or a device has none beside it. A promise of nothing; an error has Node's own as its `cause`. */
  async save(path) {
    const { stat, writeFile } = await import("node:fs/promises")
    const { fileURLToPath } = await import("node:url")
    const name = path.href ? fileURLToPath(path) : path
    const text = this.#text(), places = this.#places(await modules())
    const notes = this.#notes.map((note) => `note ${note}`)
    const delivered = this.#delivered.map(([first, last]) => `delivered ${first} ${last}`)
    const refused = this.refusals().map((told) => `refused ${told}`)
    const beside = [this.#lines.length, "language javascript", ...notes, ...delivered, ...(this.#hasLog ? ["log"] : []), ...refused,
      ...places.map(([line, told]) => `${line} ${told}`)]
    const there = await stat(name).catch(() => null)
    const lines = this.#lines.length
    if (there !== null && !there.isFile()) return await writeFile(name, text).then(() => this.#markRead(lines), (why) => { throw telling(why, name) })
    const target = await linkedTo(name) // first of all, so that an error names the file that was asked for
    const toldBeside = beside.map((line) => `${line}\n`).join("")
    for (let tries = 0; tries < MOST_TRIES; tries++) {
      await put(`${name}.lines`, toldBeside)
      await put(name, text, target)
      if (await mayHold(`${name}.lines`, toldBeside)) return this.#markRead(lines)
      await new Promise((goOn) => setTimeout(goOn, 10 * Math.random())) // another one has put its own there, and this trace is beside it
    }
    throw Object.assign(new Error(`another process saves there too: ${escaped(name)}`), { code: "EBUSY", path: name })
  }

  /** What an accepted verdict on this recording may hide: that a call was refused, say, that replicas end differently, or that nothing was
   * recorded. A promise of a list. */
  async warnings() {
    if (this.#only !== null) throw new Refused(ONE_LOG)
    const found = hidden(this.#lines), withNearest = this.#nearest(await modules())
    return [...this.refusals(), ...found.map(withNearest)]
  }

  /** A promise of the program's report on this recording, and as `warnings` what it may hide where it says `accepted`, or that weak holds,
   * asked for or not; and of any whether calls were refused. It answers, and never fails where the recording is wrong: look at the
   * answer. The program is the words that are given, or that of $DOMEPEELER. Where neither names one, the library judges in this process: that of
   * $DOMEPEELER_LIBRARY, that of this package, or the one that was installed with the `domepeeler` of the PATH. Else it is `domepeeler`. `judgedBy`
   * says which it was. */
  async judge(program = null, _goal = {}) {
    const { report, name } = this.#report(await modules(), program)
    const isPassing = report.verdict === "accepted" || report.weak === true
    const answer = { ...report, warnings: isPassing ? await this.warnings() : this.refusals() }
    return Object.defineProperty(answer, "judgedBy", { value: name }) // no part of the report
  }

  // The program's report on this recording.
  #report(node, program) {
    const here = program || process.env.DOMEPEELER || this.#only !== null ? null : library(node)
    const { name, done } = here ? { name: here.path, done: here.verdict(this.#text()) }
      : this.#ask(node, program, "DOMEPEELER", "domepeeler", "the program's", ["verdict", "--json", "-"])
    if ((done.status !== 0 && done.status !== 1) || !done.stdout.startsWith("{")) throw ended(name, done, "report")
    const report = reportIn(name, done.stdout)
    const isAccepted = report.verdict === "accepted"
    const operations = this.#replicas.reduce((sum, one) => sum + one.operations, 0)
    if (isAccepted !== (done.status === 0) || report.operations !== operations)
      throw new Error(`${escaped(name)} ended with status ${done.status} and printed a report that is not on this recording`)
    unread.delete(this.#number)
    return { report, name }
  }

  // Records by this function what the editor answered; where that is asked for, the session up to it is judged. An error begins at the
  // caller of the method.
  #answered(method, record) {
    this.#goOn(method)
    const answer = this.#noting(record)
    const why = this.#stop ? this.#wrong() : null
    if (why) throw from(method, why)
    return answer
  }

  // Throws again what stopped the session, if anything did.
  #goOn(method) {
    if (this.#stopped) throw from(method, new NotAccepted(this.#stopped))
  }

  // What is wrong with the session up to here, which is then remembered; or why it was not judged.
  #wrong() {
    const node = modulesAtOnce()
    let report
    try {
      report = this.#report(node, null).report
    } catch (why) {
      this.#markUnread()
      return why
    }
    if (report.verdict === "accepted" || (this.#weak && report.weak === true)) {
      if (this.#open.size) this.#markUnread() // what is to come still
      return null
    }
    try {
      this.#stopped = this.#explained(node, null, this.#weak).trimEnd()
    } catch (why) {
      this.#stopped = `The recording is not accepted: ${report.verdict}. There is no explanation: ${why.message}`
    }
    this.#markUnread()
    return new NotAccepted(this.#stopped)
  }

  /** A promise of what the report means, in words, with the lines of your code or log, the ids of the numbered names, and your
   * notes. With `weak`, where the weak list specification alone is asked for. The tool is the words that are given, that of
   * $DOMEPEELER_EXPLAIN, or `domepeeler-explain`, beside the program of $DOMEPEELER or on the PATH. */
  async explain(explainer = null, { weak = false } = {}) {
    return this.#explained(await modules(), explainer, weak)
  }

  #explained(node, explainer, weak) {
    const command = besideProgram(node, "domepeeler-explain")
    const delivered = this.#delivered.slice(-MOST_DELIVERED).flatMap(([first, last]) => ["--delivered", `${first}-${last}`])
    const { name, done } = this.#ask(node, explainer, "DOMEPEELER_EXPLAIN", command, "the tool's",
      [...(weak ? ["--weak"] : []), "--language", "javascript", ...delivered, ...this.refusals().flatMap((told) => ["--refused", told]), "-"])
    if ((done.status !== 0 && done.status !== 1) || !done.stdout) throw ended(name, done, "words")
    unread.delete(this.#number)
    const words = new Set(done.stdout.match(/[A-Za-z0-9]+/g))
    const named = [...this.ids()].filter(([short]) => words.has(short) && short.startsWith("long"))
    const told = named.map(([short, given]) => `${short}: ${escaped(given)}`)
    return beforeLast(this.#withPlaces(node, done.stdout), section("Ids that were too long for a name", told) + section("Your notes", this.#notes))
  }

  // What puts behind each line of the trace that a warning names in brackets its nearest place in your code or log.
  #nearest(node) {
    const callers = [...this.#callers], place = placing(node)
    return (warning) => warning.replace(NAMED, (all, line) => {
      const [nearest] = callers[line - HEAD_LINES - 1]
      return nearest ? `${all.slice(0, -1)}, ${place(nearest)})` : all
    })
  }

  // The words, with the places of the lines of the trace that they name.
  #withPlaces(node, said) {
    said = said.replace(WARNINGS, this.#nearest(node))
    const named = new Set([...said.matchAll(LINE)].map(([, line]) => Number(line)))
    const found = this.#places(node).filter(([line]) => named.has(line))
    if (!found.length) return said
    if (this.#hasLog) { // then the editor is not this program, which a debugger might stop
      const places = new Map(found), at = (line) => places.get(Number(line))
      said = said.replace(STATEMENT, (all, stop, line) => stop + (at(line) ? ` The editor then writes ${at(line)}.` : ""))
    }
    const lines = new Map()
    for (const [, places] of found) lines.set(places, [])
    for (const [line, places] of found) lines.get(places).push(line)
    const told = [...lines].map(([places, at]) => `line${at.length === 1 ? "" : "s"} ${joined(at)}: ${places}`)
    return beforeLast(said, section(`In your ${this.#hasLog ? "log" : "code"}`, told))
  }

  // By line of the trace the places in your code, where there are some.
  #places(node) {
    const place = placing(node), told = new Map()
    for (const callers of this.#callers) if (!told.has(callers)) told.set(callers, callers.map(place).join(", called from "))
    return this.#callers.map((callers, at) => [at + HEAD_LINES + 1, told.get(callers)]).filter(([, places]) => places)
  }

  // How a program ended that had the text on its standard input, and its name.
  #ask(node, given, variable, command, whose, more) {
    if (this.#only !== null) throw new Refused(ONE_LOG)
    const asked = given || process.env[variable] || command
    const [name, ...words] = Array.isArray(asked) ? asked : [asked]
    const done = node.childProcess.spawnSync(name, [...words, ...more], { input: this.#text(), maxBuffer: MOST_PRINTED, encoding: "utf8" })
    done.signalNumber = node.os.constants.signals[done.signal]
    if (done.error && done.status === null && done.signal === null) {
      throw new Error(`${escaped(name)} cannot be run (${done.error.code}): set ${variable} to ${whose} path`)
    }
    return { name, done }
  }

  #known(replica) {
    const last = this.#replicas.length - 1
    if (whole(replica, 0, last)) return
    throw new Refused(Number.isInteger(replica) ? `no replica ${replica} among 0 to ${last}` : notWhole("replica", replica, 0, last))
  }

  #acts(replica) {
    this.#known(replica)
    if (this.#only !== null && this.#only !== replica) {
      throw new Refused(`this log is of replica ${this.#only} alone, not of ${replica}`)
    }
  }

  #ofAnother(replica, author) {
    if (author === replica) throw new Refused(`replica ${replica} receives no operation of its own`)
  }

  #inOneRecording() {
    if (this.#only !== null) {
      throw new Refused("one replica's log does not know the changes of the others: send each operation's number, and call received")
    }
  }

  #room(replica, entries = 1) {
    const have = this.#replicas[replica].entries
    if (have + entries > MOST_ENTRIES) {
      throw new Full(`replica ${replica} has ${have} entries${entries > 1 ? `; a trace takes at most ${MOST_ENTRIES}` : ", the most that a trace takes"}`)
    }
  }

  // Records it, or throws and leaves all as it was, the names of ids among it.
  #operation(replica, kind, response, name, position, changeId = null) {
    const before = this.#ids.size
    try {
      return this.#said(replica, kind, response, name, position, changeId)
    } catch (why) {
      this.#forget(before)
      throw why
    }
  }

  // Remembers no more than so many names, the first ones.
  #forget(names) {
    for (const [short, given] of [...this.#ids].slice(names)) {
      this.#ids.delete(short)
      this.#short.delete(given)
    }
  }

  // What says how far everything has been recorded by now.
  #mark() {
    const replicas = this.#replicas.map((one) => ({ ...one, changes: one.changes.length, pasts: one.pasts.length }))
    return { lines: this.#lines.length, names: this.#ids.size, hasLog: this.#hasLog, replicas }
  }

  // Makes undone what was recorded since the mark; no id of a change may be among it.
  #backTo({ lines, names, hasLog, replicas }) {
    this.#lines.length = lines
    this.#callers.length = lines - HEAD_LINES
    this.#hasLog = hasLog
    this.#forget(names)
    this.#replicas.forEach((one, replica) => {
      const { changes, pasts, ...numbers } = replicas[replica]
      Object.assign(one, numbers)
      one.changes.length = changes
      one.pasts.length = pasts
    })
  }

  // What `delivered` is given, as a list by replica.
  #shown(lists) {
    const wanted = `delivered takes one list for each of the ${this.#replicas.length} replicas, not `
    if (Array.isArray(lists)) {
      if (lists.length !== this.#replicas.length) throw new Refused(`${wanted}${lists.length}`)
      return Array.from(lists)
    }
    if (lists === null || typeof lists !== "object") throw new Refused(wanted + told(lists))
    const given = this.#byReplica(lists)
    if (given.size !== this.#replicas.length) throw new Refused(`${wanted}${given.size}`)
    return this.#replicas.map((_, replica) => given.get(replica))
  }

  // What stands in a Map or an object, as a Map by replica.
  #byReplica(given) {
    const pairs = given instanceof Map ? [...given] : Object.entries(given)
    return new Map(pairs.map(([key, value]) => {
      const replica = typeof key === "string" && /^[0-9]+$/.test(key) ? Number(key) : key
      this.#known(replica)
      return [replica, value]
    }))
  }

  #said(replica, kind, response, name, position, changeId) {
    this.#acts(replica)
    const words = [replica, kind]
    const isInsert = kind === "ins", isChange = isInsert || kind === "del"
    if (isChange) words.push(this.#name(name))
    if (isInsert) {
      if (!whole(position, 0, MOST_POSITION)) {
        throw new Refused(notWhole("position", position, 0, MOST_POSITION))
      }
      words.push(position)
    }
    if (!Array.isArray(response)) throw new Refused("a response is a list of names")
    const names = Array.from(response, (one) => this.#name(one)) // holes too
    if (changeId !== null) this.#checkChange(replica, changeId)
    this.#fits(replica, isInsert ? 1 : 0, names.length)
    const own = this.#replicas[replica]
    own.entries += 1
    own.operations += 1
    own.inserts += isInsert ? 1 : 0
    own.places += names.length
    own.pasts.push(own.others)
    if (isChange) own.changes.push(own.operations)
    if (changeId !== null) {
      if (!this.#changes.has(changeId)) this.#changes.set(changeId, [])
      this.#changes.get(changeId).push([replica, own.operations])
    }
    this.#write([...words, ":", ...names].join(" "))
    return own.operations
  }

  // The limits, in the order in which the program tests them.
  #fits(replica, inserts, names) {
    this.#room(replica)
    const own = this.#replicas[replica]
    if (own.inserts + inserts > MOST_INSERTS) {
      throw new Full(`replica ${replica} has ${MOST_INSERTS} inserts, the most that a trace takes`)
    }
    if (names <= MOST_NAMES && own.places + names <= MOST_PLACES) return
    const full = new Full(names > MOST_NAMES ? `a response of ${names} names; a trace takes at most ${MOST_NAMES}` :
      `${own.places + names} names over the responses of replica ${replica}; a trace takes at most ${MOST_PLACES}`)
    full.isWrong = this.#only === null && names > inserts + this.#replicas.reduce((all, one) => all + one.inserts, 0)
    throw full
  }

  // The name in the trace: what is given, or of an id that is no name, a name that no other one has.
  #name(given) {
    if (typeof given !== "string") throw new Refused(`a name is a string, not ${told(given)}`)
    if (this.#short.has(given)) return this.#short.get(given)
    if (NAME.test(given)) {
      if (given.length === MOST_BYTES || given.startsWith("long") || given.includes("-")) { // others never stand for an id
        const had = this.#ids.get(given) ?? given
        if (had !== given) throw new Refused(`name "${given}" is already used for the id "${escaped(had)}"`)
        this.#ids.set(given, given)
      }
      return given
    }
    let name = UUID.test(given) ? given.replaceAll("-", "") : ""
    if (new TextEncoder().encode(given).length <= MOST_BYTES) {
      if (!WITH_SIGNS.test(given)) throw new Refused(`name "${escaped(given)}" is not 1 to 32 of A-Z a-z 0-9 _ - . (an id may have @ , : and / too)`)
      name = (/^[0-9]/.test(given) ? "e" : "") + given.replace(/[@,:/]/g, "-")
    }
    if (!name || name.length > MOST_BYTES || this.#ids.has(name)) name = this.#numbered(given)
    this.#ids.set(name, given)
    this.#short.set(given, name)
    return name
  }

  // The next name that stands for an id.
  #numbered(given) {
    if (this.#only !== null) {
      throw new Refused(`one replica's log can't give the id "${escaped(given)}" a short name, since each machine would give another`)
    }
    let number = 1 + this.#short.size
    while (this.#ids.has(`long${number}`)) number += 1
    return `long${number}`
  }

  #checkChange(replica, changeId) {
    checkId(changeId)
    const [had] = this.#changes.get(changeId) ?? []
    if (had && had[0] !== replica) throw new Refused(`the id ${quoted(changeId)} is that of ${had[0]}.${had[1]} already`)
  }

  // How many operations of each replica this one has.
  #has(replica) {
    return this.#replicas[replica].others.map((have, other) => (other === replica ? this.#replicas[replica].operations : have))
  }

  // The clock as a list.
  #counts(clock) {
    this.#inOneRecording()
    let counts = clock
    if (!Array.isArray(clock)) {
      const given = clock && typeof clock === "object" ? this.#byReplica(clock) : new Map()
      counts = given.size ? this.#replicas.map((_, replica) => (given.has(replica) ? given.get(replica) : 0)) : []
    }
    if (counts.length !== this.#replicas.length) throw new Refused(`a clock has a count for each of ${this.#replicas.length} replicas`)
    Array.from(counts).forEach((count, replica) => { // holes too
      if (!whole(count, 0, MOST_POSITION)) throw new Refused(notWhole("count", count, 0, MOST_POSITION, " of a clock"))
      const have = this.#replicas[replica].changes.length
      if (count > have) throw new Refused(`the clock counts ${count} changes of replica ${replica}, which has recorded ${have}`)
    })
    return counts
  }

  // Writes the receipts of what an update carries, if the replica has or gets with it all that the authors had seen.
  #take(replica, carried, seen) {
    const has = this.#has(replica), isCarried = new Set(carried.map((one) => one.join(".")))
    // By replica its first change that is neither there nor carried; undefined where there is none.
    const lacking = this.#replicas.map(({ changes }, other) => {
      let at = upTo(changes, has[other])
      while (isCarried.has(`${other}.${changes[at]}`)) at += 1
      return changes[at]
    })
    const missing = carried.filter(([author, n]) => n > has[author]).sort((a, b) => a[0] - b[0] || a[1] - b[1])
    const ends = new Map(missing)
    for (const [author, n] of missing) {
      this.#replicas[author].pasts[n - 1].forEach((past, other) => {
        const first = lacking[other]
        if (first === undefined || first > Math.max(other === author ? n - 1 : past, seen ? seen[other] : 0)) return
        const why = new NotCausal(`not causal: ${author}.${n} was applied at replica ${replica} before ${other}.${first}, ` +
          `which replica ${author} had seen; ${other}.${first} must arrive first or in the same update: ` +
          "perhaps it was lost, or only the call for it is missing" +
          (seen && other === author ? MORE_CHANGES : ""))
        const key = `${replica} ${author}`
        if (n >= (this.#open.get(key)?.n ?? 0)) this.#open.set(key, { replica, author, n, words: why.message })
        throw why
      })
    }
    this.#room(replica, ends.size)
    for (const [author, n] of ends) this.#receipt(replica, author, n)
    this.#close(replica)
  }

  // What was not causal at the replica, and has come since, is open no more.
  #close(replica) {
    for (const [key, one] of this.#open) {
      if (one.replica === replica && one.n <= this.#replicas[replica].others[one.author]) this.#open.delete(key)
    }
  }

  // What a function that records answers. If it is refused, that is remembered: what it says is not recorded. At a limit the session ends
  // and the caller knows it; and of what is not causal is known whether it comes later.
  #noting(record) {
    try {
      return record()
    } catch (why) {
      if ((why instanceof Full && !why.isWrong) || why instanceof NotCausal) throw why
      this.#firstRefused ||= why instanceof Refused ? why.message : escaped(String(why).slice(0, MOST_LETTERS)) // or what was given can't be looked at
      this.#refused += 1
      this.#markUnread()
      throw why
    }
  }

  // Writes a receipt that may be written.
  #receipt(replica, author, n) {
    const own = this.#replicas[replica]
    own.entries += 1
    if (this.#only === null) {
      const past = this.#replicas[author].pasts[n - 1]
      const others = own.others.map((have, other) => Math.max(have, past[other], other === author ? n : 0))
      if (others.some((have, other) => have > own.others[other])) own.others = others
    }
    this.#write(`${replica} recv ${author} ${n}`)
  }

  #write(line) {
    this.#lines.push(line)
    this.#callers.push(this.#logLine ?? this.#callersHere())
    this.#hasLog ||= this.#logLine !== null
    if (!this.#stop) this.#markUnread()
  }

  #markUnread() {
    unread.set(this.#number, { place: this.#callers.at(-1)?.[0], told: this.#stopped.split("\n")[0] })
  }

  // So many lines have been saved.
  #markRead(lines) {
    if (lines === this.#lines.length) unread.delete(this.#number)
  }

  #text() {
    return this.#lines.join("\n") + "\n"
  }

  // The nearest callers that are your code.
  #callersHere() {
    const stack = stackHere()
    if (this.#stacks.size === MOST_STACKS) this.#stacks.clear()
    if (!this.#stacks.has(stack)) this.#stacks.set(stack, callersIn(stack))
    return this.#stacks.get(stack)
  }
}

const ADDON = "domepeeler.node" // the library for Node.js, beside the one that $DOMEPEELER_LIBRARY names
let loaded = null // with what was asked for

// What judging takes of Node.js.
async function modules() {
  const [childProcess, fs, os, path, url] = await Promise.all(
    [import("node:child_process"), import("node:fs"), import("node:os"), import("node:path"), import("node:url")])
  return { childProcess, fs, os, path, url }
}

// The same in a call that promises nothing.
function modulesAtOnce() {
  const [childProcess, fs, os, path, url] = ["child_process", "fs", "os", "path", "url"].map(
    (name) => process.getBuiltinModule(`node:${name}`))
  return { childProcess, fs, os, path, url }
}

// The error, whose stack then begins where the method was called.
function from(method, why) {
  try {
    Error.captureStackTrace?.(why, method)
  } catch { /* an error that may not be changed */ }
  return why
}

// The calls that led here, as the engine tells them; "" where it doesn't.
function stackHere() {
  const before = Error.stackTraceLimit
  try {
    Error.stackTraceLimit = MOST_FRAMES
    return String(new Error().stack)
  } catch { // an engine whose errors may not be changed
    return ""
  } finally {
    try {
      Error.stackTraceLimit = before
    } catch { /* it was not changed */ }
  }
}

// The nearest callers in a stack that are your code, each as its file and line; one line once where it calls itself.
function callersIn(stack) {
  const places = stack.split("\n").map((line) => FRAME.exec(line)?.[1]).filter((place) => place && isYours(place))
  return places.filter((place, at) => place !== places[at - 1]).slice(0, MOST_CALLERS)
}

// Whether a place is neither in this file or its helper, nor in an installed package (Debian's among them), nor in a text that was
// evaluated.
function isYours(place) {
  const isInstalled = /[/\\]node_modules[/\\]|^(?:file:\/\/)?\/usr\/(?:share|lib)\/nodejs\//.test(place)
  return !isInstalled && !place.includes("<anonymous>") && !OWN_FILES.some((own) => place.startsWith(`${own}:`))
}

// A file's URL with a line, as its path with the line; a path as it is.
function pathOf(caller, fileURLToPath) {
  const [, file, line] = /^(.*)(:\d+)$/.exec(caller)
  try {
    return (file.startsWith("file://") ? fileURLToPath(file) : file) + line
  } catch { // a URL that is no path here
    return caller
  }
}

// The path to which a link leads, or that is none; and an error where the path's folder is not there.
async function linkedTo(path) {
  const { readlink, stat } = await import("node:fs/promises")
  const { dirname, resolve } = await import("node:path")
  if (path === "") await stat(path).catch((why) => { throw telling(why, path) }) // it is no name of this folder
  let target = resolve(path)
  for (let links = 0; links < MOST_LINKS; links++) {
    const next = await readlink(target).catch(() => null)
    if (next === null) break
    target = resolve(dirname(target), next)
  }
  await stat(dirname(target)).catch((why) => { throw telling(why, path) })
  return target
}

// Puts a file with this text in the place of what is there: all of it, or an error and nothing. A link stays one.
async function put(path, text, target = null) {
  const { access, chmod, constants, rename, rm, stat, writeFile } = await import("node:fs/promises")
  const { randomBytes } = await import("node:crypto")
  const { dirname, join } = await import("node:path")
  const end = target ?? await linkedTo(path)
  const made = join(dirname(end), `.domepeeler-${randomBytes(8).toString("hex")}`)
  try {
    const there = await stat(end).catch(() => null)
    if (there !== null) await access(end, constants.W_OK)
    await writeFile(made, text, { flag: "wx" })
    if (there !== null) await chmod(made, there.mode & 0o7777)
    await rename(made, end)
  } catch (why) {
    await rm(made, { force: true }).catch(() => {})
    throw telling(why, path)
  }
}

// Whether the file has this text, where it can be read.
async function mayHold(path, text) {
  const { readFile } = await import("node:fs/promises")
  return await readFile(path).then((there) => there.equals(Buffer.from(text)), () => true)
}

// The recorder's own error of one of Node's, with the path that was asked for in the place of those of its call.
function telling(why, path) {
  const told = `${why.message.replace(/, [a-z]+(?: '.*)?$/s, "")}: ${escaped(path)}`
  return Object.assign(new Error(told, { cause: why }), { code: why.code, errno: why.errno, path })
}

// What says a place from the current folder.
function placing({ path: { sep }, url: { fileURLToPath } }) {
  const here = folderHere()
  return (caller) => {
    const path = pathOf(caller, fileURLToPath)
    return (here && path.startsWith(here + sep) ? path.slice(here.length + 1) : path).replace(/[\p{C}\p{Zl}\p{Zp}]/gu, "?")
  }
}

// The current folder; "" where it is gone.
function folderHere() {
  try {
    return process.cwd()
  } catch {
    return ""
  }
}

// How many of the rising numbers are at most this one.
function upTo(numbers, most) {
  let low = 0, high = numbers.length
  while (low < high) {
    const middle = (low + high) >> 1
    if (numbers[middle] <= most) low = middle + 1
    else high = middle
  }
  return low
}

// What an accepted trace with these lines may hide; tools/explaining/warnings.py says the same of a file.
function hidden(lines) {
  if (lines.length === HEAD_LINES) return ["nothing was recorded: the trace has no entry, so the verdict says nothing about your editor"]
  const count = Number(lines[1].split(" ")[1])
  // Of each replica: how many operations of each one it has, now and at each operation of its own; its changes, as the numbers of these
  // operations and their lines; the last list that it showed, which a view is not; what it had then, the receipts since, and whether a view
  // follows these.
  const end = () => ({ has: Array(count).fill(0), pasts: [], changes: [], lines: [], receipts: 0, atLast: [], since: [], isViewed: false, shown: null })
  const ends = Array.from({ length: count }, end), inserted = new Set(), deletes = [], pastEnd = []
  ends.forEach((one) => { one.atLast = one.has })
  lines.slice(HEAD_LINES).forEach((entry, at) => {
    const line = at + HEAD_LINES + 1, [head, response] = entry.split(":"), words = head.split(" ")
    const replica = Number(words[0]), kind = words[1], one = ends[replica]
    if (kind === "recv") {
      const author = Number(words[2]), n = Number(words[3])
      one.receipts += 1
      one.has = most(one.has, ends[author].pasts[n - 1])
      one.since.push({ author, n, line })
      one.isViewed = false
      return
    }
    const n = one.pasts.length + 1
    one.has = one.has.map((have, other) => (other === replica ? n : have))
    one.pasts.push(one.has)
    const names = response.split(" ").slice(1)
    one.isViewed = kind === "view"
    if (!one.isViewed) Object.assign(one, { atLast: one.has, since: [], shown: names })
    if (kind === "ins" || kind === "del") {
      one.changes.push(n)
      one.lines.push(line)
    }
    if (kind === "ins") {
      inserted.add(words[2])
      if (Number(words[3]) > names.length - 1) {
        pastEnd.push(`line ${line}, ${replica}.${n}: replica ${replica} inserted ${words[2]} at position ${words[3]}, past the end of ` +
          `a list of length ${names.length - 1}, so it counts as the end: is position ${words[3]} right?`)
      }
    } else if (kind === "del") {
      deletes.push([words[2], `line ${line}, ${replica}.${n}: replica ${replica} deleted \`${words[2]}\`, which no line inserts, so nothing ` +
        "was there to delete: the name is wrong, or its insert was not recorded"])
    }
  })
  const ofNothing = deletes.filter(([name]) => !inserted.has(name)).map(([, said]) => said)
  const silent = ends.flatMap(({ pasts, receipts }, replica) => (pasts.length ? [] :
    [`replica ${replica} has ${receipts ? "receipts, but no operation" : "no entry"}: nothing that it showed is judged`]))
  const [late, strangers] = [receivedLast(ends), unheard(ends)]
  return [...unshown(ends, late), ...different(ends, late), ...strangers, ...silent, ...some(ofNothing, "delete", "of elements that no line inserts"),
    ...some(pastEnd, "insert", "past the end of a list")]
}

function most(one, two) {
  return one.map((count, at) => Math.max(count, two[at]))
}

function some(said, what, which) {
  const more = said.length - MOST_WARNED
  return more > 0 ? [...said.slice(0, MOST_WARNED), `and ${more} more ${what}${more === 1 ? "" : "s"} ${which}`] : said
}

// Whether the last lists that replicas showed differ as sets, and which changes never arrived at which replica. Of an author of which a
// replica never hears that is said by itself. A late one's list is an older one, which is
// said by itself too.
function different(ends, late) {
  const lists = new Map()
  ends.forEach(({ shown }, replica) => {
    if (shown === null || late.has(replica)) return
    const set = [...new Set(shown)].sort().join(" ")
    lists.set(set, [...(lists.get(set) ?? []), replica])
  })
  const lacking = ends.map(({ pasts }, replica) => (pasts.length ? lacked(ends, replica) : { changes: [], count: 0 }))
  const alike = new Map()
  lacking.forEach(({ changes, count }, replica) => {
    const what = listing(changes, count)
    if (count) alike.set(what, [...(alike.get(what) ?? []), replica])
  })
  const never = [...alike].map(([what, where]) => `${what} never arrived at replica${where.length === 1 ? "" : "s"} ${joined(where)}`)
  const isOne = alike.size === 1 && lacking.every(({ count }) => count < 2)
  const lost = isOne ? "Unless it was still on its way, it was lost or is held back" : "Unless they were still on their way, they were lost or are held back"
  if (lists.size < 2) return never.length ? [`in this recording ${never.join("; ")}. ${lost}`] : []
  const replicas = [...lists.values()].flat().sort((a, b) => a - b)
  const same = [...lists.values()].filter((one) => one.length > 1).map((one) => `${joined(one)} show the same one`)
  const said = `the last lists of replicas ${joined(replicas)} differ${same.length ? ` (${same.join("; ")})` : ""}`
  if (lacking.some(({ count }, replica) => count && !replicas.includes(replica))) return [said, `in this recording ${never.join("; ")}. ${lost}`]
  return [never.length ? `${said}: ${never.join("; ")} in this recording. ${lost}` : said]
}

// The changes that never arrived at the replica, in the order of the trace, as many as are told, and how many there are; none of an author
// of which it never hears.
function lacked(ends, replica) {
  let count = 0
  const found = ends.flatMap(({ changes, lines }, author) => {
    const heard = upTo(changes, ends[replica].has[author])
    if (!heard || author === replica) return []
    count += changes.length - heard
    return changes.slice(heard, heard + MOST_LACKED).map((n, at) => [lines[heard + at], `${author}.${n}`])
  })
  const told = found.sort(([a], [b]) => a - b).slice(0, MOST_LACKED)
  return { changes: told.map(([line, name]) => `${name} (line ${line})`), count }
}

// Of replicas that did something, and never heard of a change of another.
function unheard(ends) {
  return ends.flatMap(({ pasts, has }, replica) => {
    const isUnheard = ({ changes }, author) => changes.length && author !== replica && changes[0] > has[author]
    const others = ends.flatMap((other, author) => (isUnheard(other, author) ? [author] : []))
    if (!pasts.length || !others.length) return []
    return [`replica ${replica} never hears of replica${others.length === 1 ? "" : "s"} ${joined(others)}: no receipt brings it an ` +
      "insert or a delete from there, so nothing shows how it applies these. At the end of a session let everyone receive everything, " +
      "and then read the list"]
  })
}

// By replica the last receipts that bring changes, and are followed by no list that it shows, or by a view alone.
function receivedLast(ends) {
  return new Map(ends.flatMap(({ pasts, atLast, since }, replica) => {
    let has = atLast
    const news = since.filter(({ author, n }) => {
      const before = has
      has = most(has, ends[author].pasts[n - 1])
      return ends.some(({ changes }, other) => upTo(changes, has[other]) > upTo(changes, before[other]))
    }).map(({ author, n, line }) => `${author}.${n} (in line ${line})`)
    return pasts.length && news.length ? [[replica, news]] : []
  }))
}

function unshown(ends, late) {
  return [...late].map(([replica, news]) => `replica ${replica} shows no list${ends[replica].isViewed ? " but a view" : ""} after it received ` +
    `${listing(news, news.length)}: let each replica read at the end`)
}

// The first of so many, and how many more there are.
function listing(said, count) {
  const more = count - MOST_LACKED
  return joined(more > 0 ? [...said.slice(0, MOST_LACKED), `${more} more`] : said)
}

function joined(words) {
  return words.length > 1 ? `${words.slice(0, -1).join(", ")} and ${words.at(-1)}` : String(words[0])
}

// A section of an explanation; nothing where it would be empty.
function section(title, lines) {
  return lines.length ? `\n${title}\n${lines.map((line) => `  ${plain(line)}\n`).join("")}` : ""
}

// An explanation with more sections, before its last one: what the verdict says by definition.
function beforeLast(said, sections) {
  const last = said.includes(LAST) ? said.lastIndexOf(LAST) : said.length
  return said.slice(0, last) + sections + said.slice(last)
}

// A line, with its first sign as in an error where a CI service would take it for a command.
function plain(line) {
  const first = COMMAND.exec(line)?.[0].length ?? -1
  return first < 0 ? line : `${line.slice(0, first)}\\x${line.charCodeAt(first).toString(16)}${line.slice(first + 1)}`
}

function whole(number, least, most) {
  return Number.isInteger(number) && least <= number && number <= most
}

// Says that a value is not such a number: a whole number itself, or else its type.
function notWhole(what, number, least, most, of = "") {
  const wanted = `is not a whole number from ${least} to ${most}`
  return Number.isInteger(number) ? `${what} ${number}${of} ${wanted}` : `${what}${of} ${wanted} but ${told(number)}`
}

// A wrong value, with its type.
function told(value) {
  if (value === null || value === undefined) return String(value)
  if (typeof value === "string") return `the string "${escaped(value.slice(0, MOST_SHOWN))}"${value.length > MOST_SHOWN ? ".." : ""}`
  if (typeof value === "bigint") return `the BigInt ${String(value).slice(0, MOST_SHOWN)}`
  if (typeof value === "number" || typeof value === "boolean") return `the ${typeof value} ${value}`
  if (typeof value === "symbol") return "a Symbol"
  if (typeof value === "function") return "a function"
  return Array.isArray(value) ? "an array" : "an object"
}

// A name, an id or another text for an error: a byte that is no printable ASCII stands as `\x1b`, and so does the first sign of what a CI
// service would take for a command.
function escaped(text) {
  const first = COMMAND.exec(text)?.[0].length ?? -1
  const shown = (byte, at) => (byte >= 0x20 && byte < 0x7f && at !== first ? String.fromCharCode(byte) :
    `\\x${byte.toString(16).padStart(2, "0")}`)
  return Array.from(new TextEncoder().encode(text), shown).join("")
}

function quoted(changeId) {
  return typeof changeId === "string" ? `"${escaped(changeId)}"` : String(changeId)
}

function checkId(changeId) {
  if (typeof changeId !== "string" && typeof changeId !== "number") {
    throw new Refused(`an id of a change is a string or a number, not ${told(changeId)}`)
  }
}

// The library that judges in this process, and its path; null where there is none.
function library({ fs, path: { delimiter, dirname, join }, url }) {
  const asked = process.env.DOMEPEELER_LIBRARY ?? "", on = process.env.PATH ?? ""
  if (loaded?.asked === asked && loaded.on === on) return loaded.library
  loaded = { asked, on, library: null }
  const program = on.split(delimiter).map((folder) => join(folder, "domepeeler")).find((file) => {
    try {
      fs.accessSync(file, fs.constants.X_OK)
      return fs.statSync(file).isFile()
    } catch {
      return false
    }
  })
  const beside = [ADDON, `../../../lib/domepeeler/${ADDON}`] // in a package, and as tools/install puts both
  const inPackage = import.meta.url.startsWith("file:") ? beside.map((file) => url.fileURLToPath(new URL(file, import.meta.url))) : []
  const installed = program ? [join(dirname(dirname(fs.realpathSync(program))), "lib", "domepeeler", ADDON)] : []
  const path = asked ? join(dirname(asked), ADDON) : [...inPackage, ...installed].find((file) => fs.existsSync(file))
  if (!path) return null
  try {
    const module = { exports: {} }
    process.dlopen(module, path)
    loaded.library = { path, verdict: (text) => module.exports.verdict(text) }
  } catch (why) {
    if (asked) throw new Error(`${escaped(path)} cannot be loaded: ${escaped(why.message)}`)
  }
  return loaded.library
}

// The command's path where it lies beside the program of $DOMEPEELER; else the command.
function besideProgram({ fs: { accessSync, constants, statSync }, path: { dirname, join } }, command) {
  const program = process.env.DOMEPEELER ?? ""
  const path = join(dirname(program), command)
  if (!/[/\\]/.test(program) || !statSync(path, { throwIfNoEntry: false })?.isFile()) return command
  try {
    accessSync(path, constants.X_OK)
    return path
  } catch {
    return command
  }
}

function reportIn(name, printed) {
  let report = null
  try {
    report = JSON.parse(printed)
  } catch { /* as what is no report at all */ }
  if (typeof report?.verdict !== "string") throw new Error(`${escaped(name)} printed something that is no report`)
  return report
}

// Says how a program ended of whose words there are none, or not the right ones.
function ended(name, done, lacking) {
  if (done.signal) return new Error(`${escaped(name)} was ended by signal ${done.signalNumber}`)
  const why = done.stderr.trim()
  const isTold = why || (done.status !== 0 && done.status !== 1)
  return new Error(`${escaped(name)} ended with status ${done.status}${isTold ? `: ${escaped(why)}` : ` and printed no ${lacking}`}`)
}
