/** No trace can say this. */
export class Refused extends Error {}

/** The replica has reached a limit of traces: end this session, and begin another. */
export class Full extends Refused {
  isWrong: boolean
}

/** An update was applied at a replica that lacks a change which the update's author had seen. */
export class NotCausal extends Refused {}

/** With `stop`: the session is not accepted up to here, or with `weak` too, weak doesn't hold. Says what explain() says. */
export class NotAccepted extends Error {}

/** The program's report, as docs/formats.md has it. Which fields there are is up to the verdict. */
export interface Report {
  verdict: "accepted" | "contents" | "position" | "refused" | "doubled"
  replicas: number
  operations: number
  inserts: number
  strong?: boolean
  weak?: boolean
  /** What the verdict may hide where it is accepted, or weak holds; else that calls were refused. */
  warnings: string[]
  /** The name of the program, or the path of the library, that judged. */
  judgedBy: string
  [field: string]: unknown
}

/** With `weak`, the editor promises the weak list specification alone, as one with a server that orders changes. */
export interface Goal {
  weak?: boolean
}

/** With `stop` the session is judged after each call that takes a list, which throws NotAccepted if it answered wrong; with `weak` too, if
 * weak then doesn't hold. */
export interface Stop extends Goal {
  stop?: boolean
}

/** For each replica how many of its inserts and deletes an author had seen. */
export type Clock = readonly number[] | ReadonlyMap<number, number> | Readonly<Record<number, number>>

/** For each replica the list that it shows. */
export type Lists = readonly (readonly string[])[] | ReadonlyMap<number, readonly string[]> | Readonly<Record<number, readonly string[]>>

/** A session of so many replicas; with `only`, the log that this one replica keeps on its own machine. */
export class Recording {
  constructor(replicas: number, only?: number | null, options?: Stop)

  /** What is recorded from now on comes from this line of this file, a log's: `save` and `explain` name it, and not the lines of your
   * code. Without a file, from your code again. */
  at(file?: string | URL | null, line?: number): void

  /** The replica inserted the name at the position and then had this list. Answers the operation's number. */
  insert(replica: number, name: string, position: number, response: readonly string[], changeId?: string | number | null): number

  /** The replica deleted the name and then had this list. Answers the operation's number. */
  delete(replica: number, name: string, response: readonly string[], changeId?: string | number | null): number

  /** The replica read its list. Answers the operation's number. */
  read(replica: number, response: readonly string[]): number

  /** The replica showed this part of its list, the window of an editor say. Answers the operation's number. */
  view(replica: number, part: readonly string[]): number

  /** The author's operation n, and with it all that the author had seen by then, was applied at the replica. */
  received(replica: number, author: number, n: number): void

  /** The author's update with this vector clock, which carries so many of the author's changes, 1 by default, was applied at the
   * replica. */
  receivedClock(replica: number, author: number, clock: Clock, changes?: number): void

  /** An update that carries the changes with these ids, and no others, was applied at the replica. */
  receivedChanges(replica: number, changeIds: Iterable<string | number>): void

  /** By now everything has arrived everywhere, and these are the lists that the replicas show: an array, or a Map or an object by replica.
   * Writes for each replica the receipts that are missing, and a read with its list. */
  delivered(lists: Lists): void

  /** Keeps a word of yours for the whole recording, as "seed 17": one line of 1 to 200 printable characters. `save` writes it beside the
   * trace, and `explain` tells it. A recording takes 20. */
  note(text: string): void

  /** How many lines the text has so far: 2 before the first entry. */
  lines(): number

  /** That calls were refused, a line each, if what they say was not recorded later. */
  refusals(): string[]

  /** How many inserts and deletes of each replica this one has: the vector clock of an update that it makes now. */
  clock(replica: number): number[]

  /** By name in the trace the id that has this name, for each id that is no name itself. */
  ids(): Map<string, string>

  /** The trace; of one replica's log the text that merge.py takes. */
  text(): string

  /** Writes the text into a file of this name; and first, into one with `.lines` behind the name, how many lines it has, so that the
   * tools notice where the end of the file is lost, your notes, and from where in your code or log each line was recorded. Each file
   * appears whole, or not at all. A second recording that is saved under the same name takes the place of the first, without a word: give each
   * that you want to keep its own. A pipe or a device has none beside it. An error has Node's own as its `cause`. */
  save(path: string | URL): Promise<void>

  /** What an accepted verdict on this recording may hide: that replicas end differently, say, or that nothing was recorded. */
  warnings(): Promise<string[]>

  /** The program's report on this recording, and as `warnings` what it may hide where it says `accepted`, or that weak holds. It answers,
   * and never fails where the recording is wrong: a test that doesn't look at its answer passes. The program is the words that are given, that of $DOMEPEELER, or `domepeeler`. */
  judge(program?: string | readonly string[] | null, options?: Goal): Promise<Report>

  /** What the report means, in words, with the lines of your code or log, and your notes. With `weak`, where the weak list specification
   * alone is asked for. The tool is the words that are given, that of $DOMEPEELER_EXPLAIN, or `domepeeler-explain`, beside the program of
   * $DOMEPEELER or on the PATH. */
  explain(explainer?: string | readonly string[] | null, options?: Goal): Promise<string>
}
