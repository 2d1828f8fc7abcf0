import type { TestContext } from "node:test"
import { NotAccepted as Stopped } from "./domepeeler.mjs"
import type { Goal, Recording, Stop } from "./domepeeler.mjs"

/** The recording is not accepted, or was not judged. */
export class NotAccepted extends Stopped {
  constructor(told: string)
}

/** A function for test(): it begins a recording of so many replicas, hands it to the body, and has it judged when that has ended; with
 * `weak` it passes where weak holds; with `stop` it fails in the call that answered wrong. A promise of it is broken: who awaits it has not
 * called it. */
export function recorded(
  replicas: number,
  body: (recording: Recording, context: TestContext) => unknown,
  options?: { folder?: string } & Stop,
): ((context: TestContext) => Promise<void>) & PromiseLike<never>

/** A promise that is kept where the recording is accepted, or with `weak` where weak holds, and lacks nothing that a refused call says; else it is
 * saved, and the error says what is wrong with it. */
export function accepted(recording: Recording, path: string, options?: Goal): Promise<void>
