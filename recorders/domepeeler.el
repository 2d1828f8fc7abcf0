;;; domepeeler.el --- Record a replicated list editor for Domepeeler  -*- lexical-binding: t -*-

;;; Commentary:

;; Records what the replicas of a list editor do and answer, and has Domepeeler judge it.
;;
;; Copy this file into your project; it needs Emacs and nothing else.  docs/recording.md says where the calls go.
;;
;;   (let* ((recording (domepeeler-new 2))
;;          (n (domepeeler-insert recording 0 "a" 0 '("a")))) ; replica 0 inserted a at 0; its list is now: a
;;     (domepeeler-received recording 1 0 n)                  ; that operation was applied at replica 1
;;     (domepeeler-delete recording 1 "a" nil)                ; replica 1 deleted a; its list is now empty
;;     (domepeeler-read recording 0 '("a"))                   ; replica 0 read its list
;;     (domepeeler-view recording 0 '("a"))                   ; replica 0 showed this part of its list
;;     (domepeeler-delivered recording '(nil nil))            ; by now all has arrived everywhere, and both lists are empty
;;     (domepeeler-save recording "session.trace")            ; the trace as a file, for tools/explain
;;     (alist-get 'verdict (domepeeler-judge recording))      ; asks the program; `warnings' are in its report too
;;     (princ (domepeeler-explain recording)))                ; what that means, in words
;;
;; An editor with a server that orders changes (Jupiter and its kin) promises the weak list specification alone, and is right
;; with `refused 3' or more.  For such a one let the test end so:
;;
;;   (let ((report (domepeeler-judge recording nil t)))
;;     (unless (and (eq (alist-get 'weak report) t) (null (alist-get 'warnings report)))
;;       (error "%s" (domepeeler-explain recording nil t))))
;;
;; Then a recording passes where weak holds; `contents', `position', `doubled' and `refused 2' still fail, and so do warnings.
;;
;; `(domepeeler-new 2 nil t)' has the session judged after each call that takes a list, and signals `domepeeler-not-accepted' in
;; the call that answered wrong; with `weak' in the place of t, in that after which weak doesn't hold.
;;
;; In a test, of ERT say, let a macro judge at the end.  Where the test fails by itself, by a `should', the trace is saved too, and its
;; verdict told, accepted or not:
;;
;;   (domepeeler-with-recording (recording 2) "failed.trace"
;;     (domepeeler-insert recording 0 "a" 0 '("a")))
;;
;; Where updates have vector clocks, `domepeeler-received-clock' writes the receipts, and refuses what is not causal.
;;
;; Threads may share a recording: each call is whole before the next one begins.
;;
;; Each call that a trace can't say signals `domepeeler-refused', or `domepeeler-full' at a limit, and leaves the
;; recording as it was.  A batch Emacs says as it ends if nothing has judged a recording, saved it or taken its text
;; since something was recorded or refused.

;;; Code:

(require 'cl-lib)
(require 'json)
(require 'seq)
(require 'subr-x)

(defconst domepeeler--replicas 16)
(defconst domepeeler--entries 16384)
(defconst domepeeler--inserts 4096)
(defconst domepeeler--names 4096)
(defconst domepeeler--places 262144)
(defconst domepeeler--position 4294967295)
(defconst domepeeler--bytes 32)
(defconst domepeeler--head 2 "Lines of a trace, before its entries.")
(defconst domepeeler--notes 20)
(defconst domepeeler--letters 200 "Of a note.")
(defconst domepeeler--delivered 100
  "Calls of `domepeeler-delivered' that the explainer is told of, the last ones.")
(defconst domepeeler--tries 100 "Of saving where another process saves too.")
(defconst domepeeler--told 5 "Deletes, or inserts, that warnings tell one by one.")
(defconst domepeeler--few 3
  "Changes that warnings tell one by one.
They are those that a replica lacks, or has made nothing of.")
(defconst domepeeler--one-log "one replica's log is no recording: merge the logs first")
(defconst domepeeler--signals
  '("Hangup" "Interrupt" "Quit" "Illegal instruction" "Trace/breakpoint trap" "Aborted" "Bus error" "Floating point exception"
    "Killed" "User defined signal 1" "Segmentation fault" "User defined signal 2" "Broken pipe" "Alarm clock" "Terminated")
  "The words by which Emacs names the signals from 1 on.")

(define-error 'domepeeler-refused "No trace can say this")
(define-error 'domepeeler-not-causal "A change that the author had seen is lacking" 'domepeeler-refused)
(define-error 'domepeeler-full "A limit of traces is reached" 'domepeeler-refused)

(define-error 'domepeeler-not-accepted "The session is not accepted")

(cl-defstruct (domepeeler--replica (:copier nil))
  (entries 0) (operations 0) (inserts 0) (places 0)
  (changes (make-hash-table))  ; by place from 1: which of its operations insert or delete
  others                       ; a vector: how many operations of each other replica it has received
  (pasts (make-hash-table)))   ; the same at each operation of its own, by its number

(cl-defstruct (domepeeler-recording (:constructor domepeeler--make) (:copier nil))
  (lock (and (fboundp 'make-mutex) (make-mutex)))  ; held by each call; nil in an Emacs without threads
  lines     ; the last one first
  replicas  ; a vector
  only
  (ids (make-hash-table :test #'equal))    ; by name: the id that has it, where another might come to the same name
  (short (make-hash-table :test #'equal))  ; by id: its name, where that is a shorter one
  known     ; the names among the ids, the last one first
  stop      ; whether the session is judged after each call that takes a list; `weak' where weak is enough
  stopped   ; what is wrong with it, in words
  notes     ; the last one first
  deliveries  ; of each call of `domepeeler-delivered' the first line that it wrote, and the last; the last call first
  (refused 0)  ; how many calls that record were refused, but at a limit, and but for those that were not causal
  first-refused  ; why the first of them was
  open  ; of each replica and author, as (REPLICA AUTHOR N WORDS), the last change that was not causal there, if it has not come since
  (mark (list nil)))  ; stands for it in `domepeeler--unread'

(defvar domepeeler--unread (make-hash-table :test #'eq)
  "The marks of recordings of which nobody knows whether they are right.
Nobody has judged them, saved them or taken their text since something was
recorded or refused.")

(defun domepeeler--mark-unread (recording)
  "From now on nobody knows whether RECORDING is right.
Or whoever was told that it is wrong, since each call is judged, may have
told nobody."
  (puthash (domepeeler-recording-mark recording)
           (or (car (split-string (or (domepeeler-recording-stopped recording) "") "\n")) "")
           domepeeler--unread))

(defun domepeeler--mark-read (recording)
  (remhash (domepeeler-recording-mark recording) domepeeler--unread))

(defun domepeeler--tell-unread ()
  "Say as Emacs ends of how many recordings nobody knows that; and which are wrong."
  (let* ((told (hash-table-values domepeeler--unread))
         (wrong (remove "" told))
         (count (- (length told) (length wrong))))
    (when (> count 0)
      (message "domepeeler: nothing has judged %s since something was recorded or refused"
               (if (= count 1) "a recording, saved it or taken its text"
                 (format "%d recordings, saved them or taken their texts" count))))
    (when wrong
      (message "domepeeler: %s: %s"
               (if (cdr wrong) (format "%d recordings that were judged after each call are wrong, one of them" (length wrong))
                 "a recording that was judged after each call is wrong")
               (car wrong)))))

(when noninteractive
  (add-hook 'kill-emacs-hook #'domepeeler--tell-unread))

(defmacro domepeeler--defun (name arguments doc &rest body)
  "Define NAME as `defun' does: a call on a recording, its first argument.
It is whole before one of another thread on that recording begins."
  (declare (doc-string 3) (indent 2))
  `(defun ,name ,arguments
     ,doc
     (domepeeler--alone ,(car arguments) (lambda () ,@body))))

(defun domepeeler--alone (recording body)
  "Call BODY while no other thread does anything with RECORDING."
  (if (domepeeler-recording-lock recording)
      (with-mutex (domepeeler-recording-lock recording) (funcall body))
    (funcall body)))

(defun domepeeler--refuse (format &rest words)
  (signal 'domepeeler-refused (list (apply #'format format words))))

(defun domepeeler--full (format &rest words)
  (signal 'domepeeler-full (list (apply #'format format words))))

(defun domepeeler--whole (number least most what)
  "Whether NUMBER is one from LEAST to MOST; refused where WHAT is no whole number."
  (unless (integerp number)
    (domepeeler--refuse "%s is not a whole number from %d to %d but %s" what least most (domepeeler--shown number)))
  (<= least number most))

(defun domepeeler--shown (value)
  "VALUE with its type, in words."
  (cond
   ((stringp value)
    (format "the string \"%s\"%s" (domepeeler--escaped (substring value 0 (min 40 (length value)))) (if (> (length value) 40) ".." "")))
   ((null value) "nil")
   ((integerp value) (format "the number %d" value))
   ((floatp value) (format "the float %s" value))
   ((symbolp value) (format "the symbol %s" (domepeeler--escaped (symbol-name value))))
   (t (format "a value of type %s" (domepeeler--escaped (symbol-name (type-of value)))))))

(defun domepeeler--escaped (text)
  "TEXT, such as a name or an id, for an error.
A byte that is no printable ASCII stands as `\\x1b', and so does the first
of `::' or `##' that begins it, behind spaces too, since CI services take a
line that begins so for a command."
  (let ((first (and (string-match "\\` *\\(::\\|##\\)" text) (match-beginning 1))))
    (cl-loop for byte across (encode-coding-string text 'utf-8-unix)
             for at from 0
             concat (format (if (and (<= ?\s byte ?~) (not (eql at first))) "%c" "\\x%02x") byte))))

(defun domepeeler-new (replicas &optional only stop)
  "A session of so many REPLICAS.
With ONLY, the log that this replica keeps on its own machine.
With STOP the session is judged after each call that takes a list.  The
first after which it is not accepted, or where STOP is the symbol `weak',
weak doesn't hold, signals `domepeeler-not-accepted' with the words of
`domepeeler-explain'; its line is recorded.  Later calls that record signal
that again, and record nothing.  A program that can't be run signals as in
`domepeeler-judge'."
  (when (and only stop)
    (domepeeler--refuse "one replica's log can't be judged after each call, but only when the logs are merged"))
  (unless (domepeeler--whole replicas 1 domepeeler--replicas "number of replicas")
    (domepeeler--refuse "replicas are 1 to %d, not %d" domepeeler--replicas replicas))
  (let ((recording (domepeeler--make
                    :lines (list (format "replicas %d" replicas) "trace 1")
                    :stop stop
                    :replicas (cl-map 'vector (lambda (_) (make-domepeeler--replica :others (make-vector replicas 0)))
                                      (make-vector replicas nil)))))
    (when only
      (domepeeler--known recording only)
      (setf (domepeeler-recording-only recording) only))
    recording))

(defun domepeeler--go-on (recording)
  "Signal again what has stopped RECORDING, if anything has."
  (when (domepeeler-recording-stopped recording)
    (signal 'domepeeler-not-accepted (list (domepeeler-recording-stopped recording)))))

(defun domepeeler--answered (recording)
  "Signal what is wrong with RECORDING, where each call is to be judged."
  (when (domepeeler-recording-stop recording)
    (domepeeler--mark-unread recording) ; until it is judged
    (let* ((report (domepeeler--report recording nil))
           (weak (eq (domepeeler-recording-stop recording) 'weak))
           (verdict (alist-get 'verdict report)))
      (unless (or (equal verdict "accepted") (and weak (eq (alist-get 'weak report) t)))
        (setf (domepeeler-recording-stopped recording)
              (condition-case why
                  (string-trim-right (domepeeler-explain recording nil weak))
                (error (format "The recording is not accepted: %s. There is no explanation: %s" verdict (error-message-string why)))))
        (domepeeler--mark-unread recording)
        (domepeeler--go-on recording))
      (when (domepeeler-recording-open recording)
        (domepeeler--mark-unread recording))))) ; what is to come still

(defmacro domepeeler--noting (recording body)
  "Do BODY; where it is refused, remember that of RECORDING."
  (declare (debug (form form)))
  `(condition-case why
       ,body
     (domepeeler-refused
      (domepeeler--note-refused ,recording why)
      (signal (car why) (cdr why)))))

(defun domepeeler--note-refused (recording why)
  "Remember that a call of RECORDING was refused.
What it says is not recorded.
At a limit the session ends, and the caller knows it; and of what is not
causal is known whether it comes later."
  (unless (memq (car why) '(domepeeler-full domepeeler-not-causal))
    (cl-incf (domepeeler-recording-refused recording))
    (domepeeler--mark-unread recording)
    (unless (domepeeler-recording-first-refused recording)
      (setf (domepeeler-recording-first-refused recording) (nth 1 why)))))

(defun domepeeler--too-long (recording names format &rest words)
  "A response of RECORDING reaches a limit.
Where it has more NAMES than were inserted it is wrong, whatever comes,
and the call is told of as one that was refused."
  (let ((inserted (cl-loop for own across (domepeeler-recording-replicas recording) sum (domepeeler--replica-inserts own)))
        (why (apply #'format format words)))
    (when (and (not (domepeeler-recording-only recording)) (> names inserted))
      (domepeeler--note-refused recording (list 'domepeeler-refused why)))
    (domepeeler--full "%s" why)))

(defun domepeeler--leave-open (recording replica author n words)
  "AUTHOR's N was not causal at REPLICA, and WORDS say why."
  (let* ((open (domepeeler-recording-open recording))
         (one (cl-find-if (lambda (one) (and (= (nth 0 one) replica) (= (nth 1 one) author))) open)))
    (cond
     ((not one) (setf (domepeeler-recording-open recording) (append open (list (list replica author n words)))))
     ((>= n (nth 2 one)) (setcdr (cdr one) (list n words))))))

(defun domepeeler--close (recording replica)
  "What was not causal at REPLICA, and has come since, is open no more."
  (let ((others (domepeeler--replica-others (domepeeler--of recording replica))))
    (setf (domepeeler-recording-open recording)
          (cl-remove-if (lambda (one) (and (= (nth 0 one) replica) (<= (nth 2 one) (aref others (nth 1 one)))))
                        (domepeeler-recording-open recording)))
    nil))

(defun domepeeler--refusals (recording)
  "That calls of RECORDING were refused, if what they say was not recorded later.
A list of strings."
  (let ((calls (domepeeler-recording-refused recording))
        (first (domepeeler-recording-first-refused recording))
        (open (car (sort (copy-sequence (domepeeler-recording-open recording))
                         (lambda (a b) (or (< (car a) (car b)) (and (= (car a) (car b)) (< (nth 1 a) (nth 1 b)))))))))
    (append
     (cond
      ((= calls 1) (list (format "a call was refused, so what it says is not recorded: %s" first)))
      ((> calls 1) (list (format "%d calls were refused, so what they say is not recorded; the first: %s" calls first))))
     (and open (list (format "a call was refused, and what it says never came: %s" (nth 3 open)))))))

(domepeeler--defun domepeeler-insert (recording replica name position response)
  "REPLICA inserted NAME at POSITION and then had the list RESPONSE.
Answers the operation's number."
  (domepeeler--go-on recording)
  (prog1 (domepeeler--noting recording (domepeeler--operation recording replica "ins" response name position))
    (domepeeler--answered recording)))

(domepeeler--defun domepeeler-delete (recording replica name response)
  "REPLICA deleted NAME and then had the list RESPONSE.
Answers the operation's number."
  (domepeeler--go-on recording)
  (prog1 (domepeeler--noting recording (domepeeler--operation recording replica "del" response name))
    (domepeeler--answered recording)))

(domepeeler--defun domepeeler-read (recording replica response)
  "REPLICA read its list, RESPONSE.  Answers the operation's number."
  (domepeeler--go-on recording)
  (prog1 (domepeeler--noting recording (domepeeler--operation recording replica "read" response))
    (domepeeler--answered recording)))

(domepeeler--defun domepeeler-view (recording replica part)
  "REPLICA showed PART of its list, the window of an editor say.
Answers the operation's number."
  (domepeeler--go-on recording)
  (prog1 (domepeeler--noting recording (domepeeler--operation recording replica "view" part))
    (setcar (last (domepeeler-recording-lines recording)) "trace 2")
    (domepeeler--answered recording)))

(domepeeler--defun domepeeler-received (recording replica author n)
  "AUTHOR's operation N was applied at REPLICA.
With it came all that AUTHOR had seen by then."
  (domepeeler--go-on recording)
  (domepeeler--noting recording (domepeeler--received-now recording replica author n))
  (domepeeler--close recording replica))

(defun domepeeler--received-now (recording replica author n)
  "Write the receipt, or refuse it."
  (domepeeler--acts recording replica)
  (domepeeler--known recording author)
  (unless (domepeeler--whole n 1 domepeeler--position "operation number")
    (domepeeler--refuse "operation number %d is not a whole number from 1 to %d" n domepeeler--position))
  (when (= author replica)
    (domepeeler--refuse "replica %d receives no operation of its own" replica))
  (let ((have (domepeeler--replica-operations (domepeeler--of recording author))))
    (when (and (> n have) (not (domepeeler-recording-only recording)))
      (domepeeler--refuse "%d.%d cannot have arrived: replica %d has %d operations so far" author n author have)))
  (domepeeler--room recording replica)
  (domepeeler--receipt recording replica author n))

(domepeeler--defun domepeeler-received-clock (recording replica author clock &optional changes)
  "AUTHOR's update with the vector CLOCK was applied at REPLICA.
It carries the last of AUTHOR's changes that CLOCK counts, or the last CHANGES.
CLOCK is a list or a vector: for each replica how many of its inserts and
deletes AUTHOR had seen, its own with the carried ones among them.
Writes the receipt, unless REPLICA has it already."
  (domepeeler--go-on recording)
  (domepeeler--noting recording (domepeeler--received-clock-now recording replica author clock (or changes 1)))
  (domepeeler--close recording replica))

(defun domepeeler--received-clock-now (recording replica author clock changes)
  "Write the receipt of an update that carries CHANGES, or refuse it."
  (domepeeler--acts recording replica)
  (domepeeler--known recording author)
  (when (= author replica)
    (domepeeler--refuse "replica %d receives no operation of its own" replica))
  (let* ((counts (domepeeler--counts recording clock))
         (most (aref counts author))
         (own (domepeeler--replica-changes (domepeeler--of recording author))))
    (when (= most 0)
      (domepeeler--refuse "this is an update of replica %d, but its clock counts no change of replica %d" author author))
    (unless (domepeeler--whole changes 1 most "number of changes")
      (domepeeler--refuse "an update carries 1 to %d of the changes that its clock counts, not %d" most changes))
    (let ((have (domepeeler--has recording replica author))
          (first (gethash (- most changes -1) own))
          (last (gethash most own)))
      (cl-loop for place from (- most changes -1) to most
               for n = (gethash place own)
               when (> n have) do (domepeeler--check-causal recording replica author n counts first))
      (when (> last have)
        (domepeeler--room recording replica)
        (domepeeler--receipt recording replica author last)))))

(domepeeler--defun domepeeler-delivered (recording lists)
  "By now everything has arrived everywhere.
Each replica, from 0 upward, shows its list of LISTS, a list or a vector.
Writes for each replica the receipts that are missing, and a read.  So a
change that an editor has lost, or still holds back, is `contents' there.
RECORDING keeps which lines it wrote."
  (domepeeler--go-on recording)
  (domepeeler--noting recording (domepeeler--delivered-now recording lists))
  (domepeeler--answered recording)
  nil)

(defun domepeeler--delivered-now (recording lists)
  "Write the receipts that are missing, and a read of each of LISTS."
  (when (domepeeler-recording-only recording)
    (domepeeler--refuse "one replica's log can't say that everything has arrived: the others are recorded elsewhere"))
  (let* ((replicas (domepeeler-recording-replicas recording))
         (wanted (format "delivered takes one list for each of the %d replicas, not " (length replicas))))
    (unless (or (vectorp lists) (proper-list-p lists))
      (domepeeler--refuse "%s%s" wanted (domepeeler--shown lists)))
    (unless (= (length lists) (length replicas))
      (domepeeler--refuse "%s%d" wanted (length lists)))
    (let ((known (domepeeler-recording-known recording))
          (lines (domepeeler-recording-lines recording))
          (first (1+ (domepeeler-lines recording)))
          (before (mapcar #'copy-sequence replicas)))
      (condition-case why
          (seq-do-indexed (lambda (list replica) (domepeeler--delivered-at recording replica list)) lists)
        (domepeeler-refused
         (setf (domepeeler-recording-lines recording) lines)
         (domepeeler--forget recording known)
         (seq-do-indexed (lambda (own replica) (domepeeler--undo recording replica own)) before)
         (signal (car why) (cdr why))))
      (push (cons first (domepeeler-lines recording)) (domepeeler-recording-deliveries recording))
      (dolist (one (domepeeler-recording-open recording))
        (setf (nth 2 one) (1+ domepeeler--position)))))) ; it stays open: none of these receipts brought it

(domepeeler--defun domepeeler-note (recording text)
  "Keep TEXT, a word of yours on the whole RECORDING.
Such is the seed of a random session: `domepeeler-save' writes it, and
`domepeeler-explain' names it."
  (unless (and (stringp text) (<= 1 (length text) domepeeler--letters)
               (seq-every-p #'domepeeler--printable (string-to-multibyte text)))
    (domepeeler--refuse "a note is one line of 1 to %d printable characters" domepeeler--letters))
  (when (= (length (domepeeler-recording-notes recording)) domepeeler--notes)
    (domepeeler--refuse "a recording has %d notes, the most that it takes" domepeeler--notes))
  (push text (domepeeler-recording-notes recording))
  nil)

(domepeeler--defun domepeeler-lines (recording)
  "How many lines the text of RECORDING has.
A debugger stops by (when (= (domepeeler-lines recording) N) (debug))."
  (seq-reduce (lambda (lines own) (+ lines (domepeeler--replica-entries own)))
              (domepeeler-recording-replicas recording) domepeeler--head))

(domepeeler--defun domepeeler-clock (recording replica)
  "How many inserts and deletes of each replica REPLICA has, as a list.
It is the vector clock of an update that REPLICA makes now."
  (domepeeler--acts recording replica)
  (domepeeler--in-one-recording recording)
  (cl-loop for of across (domepeeler-recording-replicas recording)
           for other from 0
           collect (domepeeler--up-to of (domepeeler--has recording replica other))))

(domepeeler--defun domepeeler-ids (recording)
  "An alist of RECORDING's names that stand for an id, each with this."
  (let (pairs)
    (maphash (lambda (id name) (push (cons name id) pairs)) (domepeeler-recording-short recording))
    (nreverse pairs)))

(domepeeler--defun domepeeler-text (recording)
  "The trace of RECORDING; of one replica's log the text that merge.py takes."
  (domepeeler--mark-read recording)
  (domepeeler--text recording))

(defun domepeeler--text (recording)
  (concat (string-join (reverse (domepeeler-recording-lines recording)) "\n") "\n"))

(domepeeler--defun domepeeler-save (recording file)
  "Write the text of RECORDING into FILE.
First write into a file with `.lines' behind its name how many lines the
text has, so that the tools notice where the end of FILE is lost, the
notes, and which lines `domepeeler-delivered' wrote.  Each appears whole,
or what stood there stays.
A second recording that is saved under the same name takes the place of
the first, without a word: give each that you want to keep its own.
A pipe or a device has no such file beside it."
  (let ((coding-system-for-write 'utf-8-unix)
        (beside (concat file ".lines")))
    (if (and (file-exists-p file) (not (file-regular-p file)))
        (domepeeler--named file (write-region (domepeeler--text recording) nil file nil 'silent))
      (cl-loop with text = (domepeeler--text recording)
               with told = (domepeeler--beside recording)
               repeat domepeeler--tries
               do (domepeeler--put-both text file told beside)
               thereis (domepeeler--may-hold beside told)
               do (sleep-for (/ (random 10) 1000.0)) ; by chance, so that they don't keep step
               finally (domepeeler--named file (signal 'file-error '("Saving" "another process saves there too")))))
    (domepeeler--mark-read recording)
    nil))

(defun domepeeler--put-both (text file told beside)
  "Put TEXT into FILE, and first TOLD into BESIDE."
  (let ((trace (domepeeler--write-fresh text file)))
    (unwind-protect
        (progn
          (domepeeler--put-fresh (domepeeler--write-fresh told beside) beside)
          (domepeeler--put-fresh trace file))
      (when (file-exists-p trace) (delete-file trace)))))

(defun domepeeler--may-hold (file text)
  "Whether FILE has TEXT, where it can be read.
If not, another process has put its own there, beside this trace."
  (with-temp-buffer
    (set-buffer-multibyte nil)
    (or (not (ignore-errors (insert-file-contents-literally file) t))
        (equal (buffer-string) (encode-coding-string text 'utf-8-unix)))))

(defun domepeeler--beside (recording)
  "What stands in the file beside the trace."
  (format "%d\nlanguage emacs-lisp\n%s%s%s" (domepeeler-lines recording)
          (mapconcat (lambda (note) (format "note %s\n" note)) (reverse (domepeeler-recording-notes recording)) "")
          (mapconcat (lambda (range) (format "delivered %d %d\n" (car range) (cdr range)))
                     (reverse (domepeeler-recording-deliveries recording)) "")
          (mapconcat (lambda (told) (format "refused %s\n" told)) (domepeeler--refusals recording) "")))

(defmacro domepeeler--named (file &rest body)
  "Do BODY; an error of a file is told with FILE's name, as one for an error."
  (declare (indent 1))
  `(condition-case why
       (progn ,@body)
     (file-error (signal (car why) (list (nth 1 why) (nth 2 why) (domepeeler--escaped (expand-file-name ,file)))))))

(defun domepeeler--write-fresh (text file)
  "Write TEXT into a new file beside what FILE, or a link of this name, leads to.
Answers the new file's name."
  (let* ((becomes (file-truename file))
         (fresh (make-temp-name (expand-file-name ".domepeeler-" (file-name-directory becomes)))))
    (domepeeler--named file
      (condition-case why
          (progn
            (write-region text nil fresh nil 'silent nil 'excl)
            (when (file-exists-p becomes) (set-file-modes fresh (file-modes becomes))))
        (error
         (ignore-errors (delete-file fresh))
         (signal (car why) (cdr why)))))
    fresh))

(defun domepeeler--put-fresh (fresh file)
  "Let the file FRESH become FILE, or what a link of this name leads to."
  (domepeeler--named file
    (condition-case why
        (rename-file fresh (file-truename file) t)
      (error
       (ignore-errors (delete-file fresh))
       (signal (car why) (cdr why))))))

(domepeeler--defun domepeeler-warnings (recording)
  "What an accepted verdict on RECORDING may hide, a list of strings.
Such are that a call was refused, a change that never arrived, a replica
that shows nothing, a delete of what nothing inserts.  It asks no program,
and takes time linear in the text."
  (when (domepeeler-recording-only recording)
    (domepeeler--refuse domepeeler--one-log))
  (if (= (domepeeler-lines recording) domepeeler--head)
      (append (domepeeler--refusals recording)
              (list "nothing was recorded: the trace has no entry, so the verdict says nothing about your editor"))
    (let* ((warned (domepeeler--warned recording))
           (late (domepeeler--received-last recording warned))
           (strangers (domepeeler--unheard recording)))
      (append (domepeeler--refusals recording)
              (domepeeler--unshown warned late)
              (domepeeler--different recording warned late)
              strangers
              (domepeeler--without-operation recording warned)
              (domepeeler--some (domepeeler--warned-of-nothing warned) "delete" "of elements that no line inserts")
              (domepeeler--some (domepeeler--warned-past-end warned) "insert" "past the end of a list")))))

(domepeeler--defun domepeeler-judge (recording &optional program _weak)
  "The report of PROGRAM on RECORDING, as an alist.
It has one more key, `warnings': where the verdict is accepted, or weak
holds, with WEAK or without, a list of what that may hide, and else
whether calls were refused.
PROGRAM is by default that of the environment's DOMEPEELER, or \"domepeeler\"."
  (let* ((report (domepeeler--report recording program))
         (is-passing (or (equal (alist-get 'verdict report) "accepted") (eq (alist-get 'weak report) t))))
    (append report (list (cons 'warnings (if is-passing (domepeeler-warnings recording) (domepeeler--refusals recording)))))))

(defun domepeeler--report (recording program)
  "PROGRAM's own report on RECORDING, as an alist."
  (let* ((programs (list program (getenv "DOMEPEELER") "domepeeler"))
         (said (domepeeler--ask recording programs "DOMEPEELER to the program's path" "{" "report" "verdict" "--json" "-"))
         (report (ignore-errors (json-read-from-string said))))
    (unless (alist-get 'verdict report)
      (error "%s printed a report without a verdict" (domepeeler--first programs)))
    report))

(domepeeler--defun domepeeler-explain (recording &optional explainer weak)
  "What the report on RECORDING means, in words.
Before the last section stand the ids of the numbered names, and the notes.  EXPLAINER
is by default that of the environment's DOMEPEELER_EXPLAIN, or
\"domepeeler-explain\", beside the program of DOMEPEELER or where programs
are found.  With WEAK the weak list specification alone is asked for."
  (let* ((named (list explainer (getenv "DOMEPEELER_EXPLAIN") (domepeeler--beside-program "domepeeler-explain")))
         (delivered (cl-loop for (first . last) in (seq-take (domepeeler-recording-deliveries recording) domepeeler--delivered)
                             collect (format "%d-%d" first last)))
         (said (apply #'domepeeler--ask recording named "DOMEPEELER_EXPLAIN to the tool's path" "." "words" "--language" "emacs-lisp"
                      (append (and weak '("--weak"))
                              (cl-loop for range in (reverse delivered) append (list "--delivered" range))
                              (cl-loop for told in (domepeeler--refusals recording) append (list "--refused" told)) (list "-"))))
         (words (make-hash-table :test #'equal))
         (last (or (string-match "\nThe list specifications\n" said) (length said))))
    (dolist (word (split-string said "[^A-Za-z0-9]+"))
      (puthash word t words))
    (concat (substring said 0 last)
            (domepeeler--section "Ids that were too long for a name"
                                 (cl-loop for (name . id) in (domepeeler-ids recording)
                                          when (and (string-prefix-p "long" name) (gethash name words))
                                          collect (format "%s: %s" name (domepeeler--escaped id))))
            (domepeeler--section "Your notes" (reverse (domepeeler-recording-notes recording)))
            (substring said last))))

(defvar domepeeler-weak nil
  "Whether `domepeeler-with-recording' lets a recording pass where weak holds.")

(defmacro domepeeler-with-recording (binding file &rest body)
  "Do BODY with a recording, and judge it at the end.
BINDING is a variable, and behind it what `domepeeler-new' takes.  Where BODY
fails by itself, the trace is saved as FILE, its verdict is told, accepted
or not, and the error goes on.  Else it is an error that the recording is
not accepted, or may hide something: that is explained, and the trace is
saved.  Where all is right, what was saved as FILE before is removed.
What a test of ERT records before it is skipped is judged too, but may
end unequal.  With `domepeeler-weak' a recording passes where weak holds."
  (declare (indent 2) (debug ((symbolp &rest form) form body)))
  `(let ((,(car binding) (domepeeler-new ,@(cdr binding))))
     (domepeeler--tested ,(car binding) ,file (lambda () ,@body))))

(defun domepeeler--tested (recording file body)
  "Call BODY, and end as `domepeeler-with-recording' says."
  (let ((skip (condition-case why
                  (progn (funcall body) nil)
                (ert-test-skipped why)
                (error
                 (message "%s" (domepeeler--told recording file))
                 (signal (car why) (cdr why))))))
    (unless (and skip (= (domepeeler-lines recording) domepeeler--head) (null (domepeeler--refusals recording)))
      (domepeeler--judged recording file (and skip t)))
    (when skip (signal (car skip) (cdr skip)))))

(defun domepeeler--judged (recording file is-skipped)
  "Judge RECORDING as `domepeeler-with-recording' says, which names FILE.
If IS-SKIPPED, the session ends in its midst, so of what an accepted
recording may hide only calls that were refused count."
  (let ((report (domepeeler-judge recording nil domepeeler-weak)))
    (if (and (if domepeeler-weak (eq (alist-get 'weak report) t) (equal (alist-get 'verdict report) "accepted"))
             (null (if is-skipped (domepeeler--refusals recording) (alist-get 'warnings report))))
        (unless is-skipped
          (unless (equal (alist-get 'verdict report) "accepted")
            (message "%s" "weak holds, strong doesn't")) ; Emacs would show another quotation mark
          (dolist (saved (list file (concat file ".lines")))
            (when (file-regular-p saved) (delete-file saved))))
      (let ((told (domepeeler--told recording file)))
        (message "%s" told) ; the error's words may be shown in part
        (error "%s" (car (split-string told "\n")))))))

(defun domepeeler--told (recording file)
  "Save RECORDING as FILE.  Answers the explanation, and where it is saved."
  (let ((saved (condition-case why
                   (progn (domepeeler-save recording file) (format "The trace is saved: %s" file))
                 (error (error-message-string why))))
        (words (condition-case why
                   (domepeeler-explain recording nil domepeeler-weak)
                 (error (format "There is no explanation: %s\n" (error-message-string why))))))
    (format "%s\n%s" words saved)))

(defun domepeeler--section (title lines)
  "A part of the explanation with this TITLE, where it has LINES."
  (if lines (concat "\n" title "\n" (mapconcat (lambda (line) (format "  %s\n" (domepeeler--plain line))) lines "")) ""))

(defun domepeeler--plain (line)
  "LINE, with the first sign as in an error where it looks like a command."
  (let ((first (and (string-match "\\` *\\(::\\|##\\)" line) (match-beginning 1))))
    (if first (concat (substring line 0 first) (format "\\x%02x" (aref line first)) (substring line (1+ first))) line)))

(defun domepeeler--beside-program (command)
  "The path of COMMAND where it lies beside the program of DOMEPEELER.
Else COMMAND."
  (let* ((folder (file-name-directory (or (getenv "DOMEPEELER") "")))
         (path (and folder (expand-file-name command folder))))
    (if (and path (file-regular-p path) (file-executable-p path)) path command)))

(defun domepeeler--first (programs)
  "The first of PROGRAMS that there is."
  (seq-find (lambda (named) (and named (not (string-empty-p named)))) programs))

(defun domepeeler--ask (recording programs named begin lacking &rest words)
  "What the first of PROGRAMS that there is prints for the text of RECORDING.
Its arguments are WORDS; BEGIN matches where an answer begins, which is
else LACKING, and NAMED says what another program is named by."
  (when (domepeeler-recording-only recording)
    (domepeeler--refuse domepeeler--one-log))
  (let ((program (domepeeler--first programs))
        (coding-system-for-read 'utf-8-unix)
        (errors (make-temp-file "domepeeler")))
    (unwind-protect
        (with-temp-buffer
          (insert (domepeeler--text recording))
          (let ((status (condition-case why
                            (apply #'call-process-region (point-min) (point-max) program t (list t errors) nil words)
                          (file-error (error "%s cannot be run (%s): set %s" (domepeeler--escaped program) (error-message-string why) named)))))
            (goto-char (point-min))
            (unless (and (memq status '(0 1)) (looking-at begin))
              (domepeeler--ended program status lacking
                                 (with-temp-buffer (insert-file-contents errors) (string-trim (buffer-string)))))
            (when (equal begin "{")
              (domepeeler--check-agrees recording program status (buffer-string)))
            (domepeeler--mark-read recording)
            (buffer-string)))
      (delete-file errors))))

(defun domepeeler--check-agrees (recording program status report)
  "Refuse a REPORT of PROGRAM that can't be on RECORDING.
It counts its operations, and one that accepts comes with STATUS 0, any
other with 1."
  (let ((operations (cl-reduce #'+ (domepeeler-recording-replicas recording) :key #'domepeeler--replica-operations)))
    (when (string-match "\"verdict\":\"\\([a-z]+\\)\"" report)
      (unless (and (eql status (if (equal (match-string 1 report) "accepted") 0 1))
                   (string-match-p (format "\"operations\":%d," operations) report))
        (error "%s ended with status %d and printed a report that is not on this recording" (domepeeler--escaped program) status)))))

(defun domepeeler--ended (program status lacking why)
  "Say how PROGRAM ended, which printed LACKING not, and WHY as its error.
STATUS is a number, or the words for a signal."
  (cond
   ((stringp status)
    (let ((number (seq-position domepeeler--signals (replace-regexp-in-string "\\( (core dumped)\\|: [0-9]+\\)\\'" "" status))))
      (error "%s was ended by signal %s" (domepeeler--escaped program) (if number (1+ number) status))))
   ((string-empty-p why)
    (error "%s ended with status %d and printed no %s" (domepeeler--escaped program) status lacking))
   (t (error "%s ended with status %s: %s" (domepeeler--escaped program) status (domepeeler--escaped why)))))

(defun domepeeler--of (recording replica)
  (aref (domepeeler-recording-replicas recording) replica))

(defun domepeeler--known (recording replica)
  (let ((last (1- (length (domepeeler-recording-replicas recording)))))
    (unless (domepeeler--whole replica 0 last "replica")
      (domepeeler--refuse "no replica %d among 0 to %d" replica last))))

(defun domepeeler--acts (recording replica)
  (domepeeler--known recording replica)
  (let ((only (domepeeler-recording-only recording)))
    (unless (memql only (list nil replica))
      (domepeeler--refuse "this log is of replica %d alone, not of %d" only replica))))

(defun domepeeler--in-one-recording (recording)
  (when (domepeeler-recording-only recording)
    (domepeeler--refuse "%s: send each operation's number, and call received"
                        "one replica's log does not know the changes of the others")))

(defun domepeeler--counts (recording clock)
  "CLOCK as a vector."
  (domepeeler--in-one-recording recording)
  (let* ((replicas (domepeeler-recording-replicas recording))
         (counts (and (or (vectorp clock) (proper-list-p clock)) (vconcat clock))))
    (unless (= (length counts) (length replicas))
      (domepeeler--refuse "a clock has a count for each of %d replicas" (length replicas)))
    (cl-loop for count across counts
             for of across replicas
             for replica from 0
             for have = (hash-table-count (domepeeler--replica-changes of))
             unless (domepeeler--whole count 0 domepeeler--position "count of a clock")
             do (domepeeler--refuse "count %d of a clock is not a whole number from 0 to %d" count domepeeler--position)
             when (> count have)
             do (domepeeler--refuse "the clock counts %d changes of replica %d, which has recorded %d" count replica have))
    counts))

(defun domepeeler--has (recording replica other)
  "How many operations of OTHER, another replica or itself, REPLICA has."
  (let ((own (domepeeler--of recording replica)))
    (if (= other replica) (domepeeler--replica-operations own) (aref (domepeeler--replica-others own) other))))

(defun domepeeler--up-to (of operations)
  "How many changes are among the first OPERATIONS of the replica OF."
  (let* ((changes (domepeeler--replica-changes of))
         (low 0)
         (high (hash-table-count changes)))
    (while (< low high)
      (let ((middle (/ (+ low high 1) 2)))
        (if (<= (gethash middle changes) operations) (setq low middle) (setq high (1- middle)))))
    low))

(defun domepeeler--check-causal (recording replica author n counts first)
  "REPLICA has, or gets in the same update, all that AUTHOR had seen at its N.
COUNTS are the clock of the update, which carries AUTHOR's changes from FIRST."
  (cl-loop for of across (domepeeler-recording-replicas recording)
           for other from 0
           for past = (if (= other author) (1- n)
                        (aref (gethash n (domepeeler--replica-pasts (domepeeler--of recording author))) other))
           for seen = (max (domepeeler--up-to of past) (aref counts other))
           for place = (1+ (domepeeler--up-to of (domepeeler--has recording replica other)))
           for lacking = (gethash place (domepeeler--replica-changes of))
           when (and (<= place seen) (or (/= other author) (< lacking first)))
           do (let ((words (format "not causal: %d.%d was applied at replica %d before %d.%d, which replica %d had seen; %s%s"
                                   author n replica other lacking author
                                   (format "%d.%d must arrive first or in the same update: perhaps it was lost, or only the call for it is missing"
                                           other lacking)
                                   (if (/= other author) ""
                                     "; if the update carried more than one change, say how many (`changes`)"))))
                (domepeeler--leave-open recording replica author n words)
                (signal 'domepeeler-not-causal (list words)))))

(defun domepeeler--delivered-at (recording replica list)
  "Write the receipts that REPLICA lacks, and a read of its LIST.
Each receipt is of the last change of an author."
  (cl-loop for of across (domepeeler-recording-replicas recording)
           for author from 0
           for changes = (domepeeler--replica-changes of)
           for last = (gethash (hash-table-count changes) changes 0)
           when (and (/= author replica) (> last (domepeeler--has recording replica author)))
           do (domepeeler--room recording replica)
           (domepeeler--receipt recording replica author last))
  (domepeeler--said recording replica "read" list nil nil))

(defun domepeeler--undo (recording replica before)
  "Forget the receipts and reads since REPLICA was as BEFORE."
  (cl-loop for n from (1+ (domepeeler--replica-operations before))
           to (domepeeler--replica-operations (domepeeler--of recording replica))
           do (remhash n (domepeeler--replica-pasts before)))
  (aset (domepeeler-recording-replicas recording) replica before))

(defun domepeeler--printable (letter)
  "Whether a note may have LETTER.
It may have neither controls, nor what breaks a line or turns the
direction of writing, nor what is no text."
  (not (or (< letter ?\s) (<= #x7f letter #x9f) (<= #x2028 letter #x202e) (<= #x2066 letter #x2069)
           (<= #xd800 letter #xdfff) (> letter #x10ffff))))

(defun domepeeler--receipt (recording replica author n)
  "Write a receipt that may be written."
  (let ((own (domepeeler--of recording replica)))
    (cl-incf (domepeeler--replica-entries own))
    (unless (domepeeler-recording-only recording)
      (let ((others (cl-map 'vector #'max (domepeeler--replica-others own)
                            (gethash n (domepeeler--replica-pasts (domepeeler--of recording author))))))
        (aset others author (max n (aref others author)))
        (unless (equal others (domepeeler--replica-others own))
          (setf (domepeeler--replica-others own) others)))) ; a new vector, since the old one may be an operation's past
    (domepeeler--write recording (format "%d recv %d %d" replica author n))))

(defun domepeeler--write (recording line)
  "Add a LINE to the trace of RECORDING.  Answers nil.
A session that is judged after each call lacks what was refused alone."
  (push line (domepeeler-recording-lines recording))
  (unless (domepeeler-recording-stop recording)
    (domepeeler--mark-unread recording))
  nil)

(defun domepeeler--name (recording given)
  "The name of GIVEN in the trace.
What is no name but an id gets a name that no other id has."
  (unless (stringp given)
    (domepeeler--refuse "a name is a string, not %s" (domepeeler--shown given)))
  (let ((case-fold-search nil)
        (ids (domepeeler-recording-ids recording)))
    (cond
     ((gethash given (domepeeler-recording-short recording)))
     ((string-match-p "\\`[A-Za-z0-9_.-]\\{1,32\\}\\'" given)
      (when (or (= (length given) domepeeler--bytes) (string-match-p "\\`long\\|-" given)) ; others never stand for an id
        (let ((had (gethash given ids)))
          (when (and had (not (string= had given)))
            (domepeeler--refuse "name \"%s\" is already used for the id \"%s\"" given (domepeeler--escaped had)))
          (unless had (domepeeler--keep recording given given))))
      given)
     ((or (> (string-bytes given) domepeeler--bytes) (string-match-p "\\`[A-Za-z0-9_.@,:/-]+\\'" given))
      (let ((name (domepeeler--become given)))
        (when (or (not name) (gethash name ids))
          (setq name (domepeeler--numbered recording given)))
        (domepeeler--keep recording name given)
        (puthash given name (domepeeler-recording-short recording))))
     (t
      (domepeeler--refuse "name \"%s\" is not 1 to 32 of A-Z a-z 0-9 _ - . (an id may have @ , : and / too)" (domepeeler--escaped given))))))

(defun domepeeler--become (id)
  "The name that ID becomes if no other id has it; nil where only a number will do.
A letter stands first, as `2-0' would look like an operation's name."
  (if (> (string-bytes id) domepeeler--bytes)
      (and (string-match-p "\\`[0-9A-Fa-f]\\{8\\}\\(-[0-9A-Fa-f]\\{4\\}\\)\\{3\\}-[0-9A-Fa-f]\\{12\\}\\'" id)
           (replace-regexp-in-string "-" "" id))
    (let ((name (concat (if (string-match-p "\\`[0-9]" id) "e" "") (replace-regexp-in-string "[@,:/]" "-" id))))
      (and (<= (length name) domepeeler--bytes) name))))

(defun domepeeler--numbered (recording given)
  "The next name that stands for an id, GIVEN."
  (when (domepeeler-recording-only recording)
    (domepeeler--refuse "one replica's log can't give the id \"%s\" a short name, since each machine would give another"
                        (domepeeler--escaped given)))
  (let ((number (1+ (hash-table-count (domepeeler-recording-short recording)))))
    (while (gethash (format "long%d" number) (domepeeler-recording-ids recording))
      (setq number (1+ number)))
    (format "long%d" number)))

(defun domepeeler--keep (recording name id)
  "From now on NAME is that of ID."
  (puthash name id (domepeeler-recording-ids recording))
  (push name (domepeeler-recording-known recording)))

(defun domepeeler--forget (recording known)
  "Forget all names but the KNOWN ones, which are the first of the list."
  (while (not (eq (domepeeler-recording-known recording) known))
    (let* ((name (pop (domepeeler-recording-known recording)))
           (id (gethash name (domepeeler-recording-ids recording))))
      (remhash name (domepeeler-recording-ids recording))
      (remhash id (domepeeler-recording-short recording)))))

(defun domepeeler--room (recording replica)
  (when (= (domepeeler--replica-entries (domepeeler--of recording replica)) domepeeler--entries)
    (domepeeler--full "replica %d has %d entries, the most that a trace takes" replica domepeeler--entries)))

(defun domepeeler--operation (recording replica kind response &optional name position)
  "Record it, or leave all as it was, the names of ids among it."
  (let ((known (domepeeler-recording-known recording)))
    (condition-case why
        (domepeeler--said recording replica kind response name position)
      (domepeeler-refused
       (domepeeler--forget recording known)
       (signal (car why) (cdr why))))))

(defun domepeeler--said (recording replica kind response name position)
  (domepeeler--acts recording replica)
  (let* ((is-insert (string= kind "ins"))
         (inserts (if is-insert 1 0))
         (words (list kind (number-to-string replica))))
    (when (member kind '("ins" "del"))
      (push (domepeeler--name recording name) words))
    (when is-insert
      (unless (domepeeler--whole position 0 domepeeler--position "position")
        (domepeeler--refuse "position %d is not a whole number from 0 to %d" position domepeeler--position))
      (push (number-to-string position) words))
    (unless (proper-list-p response)
      (domepeeler--refuse "a response is a list of names"))
    (let* ((shown (mapcar (lambda (one) (domepeeler--name recording one)) response))
           (own (domepeeler--of recording replica))
           (names (length shown))
           (places (+ names (domepeeler--replica-places own))))
      (domepeeler--room recording replica)
      (when (> (+ inserts (domepeeler--replica-inserts own)) domepeeler--inserts)
        (domepeeler--full "replica %d has %d inserts, the most that a trace takes" replica domepeeler--inserts))
      (when (> names domepeeler--names)
        (domepeeler--too-long recording (- names inserts) "a response of %d names; a trace takes at most %d" names domepeeler--names))
      (when (> places domepeeler--places)
        (domepeeler--too-long recording (- names inserts) "%d names over the responses of replica %d; a trace takes at most %d"
                              places replica domepeeler--places))
      (cl-incf (domepeeler--replica-entries own))
      (cl-incf (domepeeler--replica-inserts own) inserts)
      (setf (domepeeler--replica-places own) places)
      (domepeeler--write recording (string-join (append (reverse words) (cons ":" shown)) " "))
      (cl-incf (domepeeler--replica-operations own))
      (let ((n (domepeeler--replica-operations own))
            (changes (domepeeler--replica-changes own)))
        (puthash n (domepeeler--replica-others own) (domepeeler--replica-pasts own))
        (when (member kind '("ins" "del"))
          (puthash (1+ (hash-table-count changes)) n changes))
        n))))

(cl-defstruct (domepeeler--entries (:copier nil))
  (lines (make-hash-table))  ; by place from 1: the lines of its changes
  receiving                  ; whether it has receipts
  since                      ; those since its last list, the last one first: author, number and line
  viewed                     ; whether a view follows these
  shown                      ; the names of that list, which a view is not, or nil
  (last 0))                  ; the number of that operation

(cl-defstruct (domepeeler--warned (:copier nil))
  entries     ; of each replica, a vector
  of-nothing  ; what is told of single deletes and inserts
  past-end)

(defun domepeeler--warned (recording)
  "What the entries of RECORDING say that warnings are made of."
  (let* ((entries (cl-map 'vector (lambda (_) (make-domepeeler--entries)) (domepeeler-recording-replicas recording)))
         (operations (make-vector (length entries) 0))
         (inserted (make-hash-table :test #'equal))
         (line domepeeler--head)
         deletes past-end)
    (dolist (entry (nthcdr domepeeler--head (reverse (domepeeler-recording-lines recording))))
      (cl-incf line)
      (pcase-let* ((colon (string-match-p ":" entry))
                   (`(,first ,kind ,third ,fourth) (seq-take (split-string (substring entry 0 colon) " " t) 4))
                   (replica (string-to-number first))
                   (own (aref entries replica)))
        (if (string= kind "recv")
            (progn
              (setf (domepeeler--entries-receiving own) t
                    (domepeeler--entries-viewed own) nil)
              (push (list (string-to-number third) (string-to-number fourth) line) (domepeeler--entries-since own)))
          (let* ((names (substring entry (1+ colon)))
                 (named (format "line %d, %d.%d: replica %d" line replica (cl-incf (aref operations replica)) replica)))
            (setf (domepeeler--entries-viewed own) (string= kind "view"))
            (unless (string= kind "view")
              (setf (domepeeler--entries-since own) nil
                    (domepeeler--entries-last own) (aref operations replica)
                    (domepeeler--entries-shown own) names))
            (when (member kind '("ins" "del"))
              (puthash (1+ (hash-table-count (domepeeler--entries-lines own))) line (domepeeler--entries-lines own)))
            (when (string= kind "del")
              (push (cons third named) deletes))
            (when (string= kind "ins")
              (puthash third t inserted)
              (let ((before (1- (length (split-string names " " t)))))
                (when (> (string-to-number fourth) before)
                  (push (format "%s inserted %s at position %s, past the end of a list of length %d, %s %s right?" named third fourth before
                                "so it counts as the end: is position" fourth)
                        past-end))))))))
    (make-domepeeler--warned
     :entries entries
     :of-nothing (cl-loop for (name . named) in (nreverse deletes)
                          unless (gethash name inserted)
                          collect (format "%s deleted `%s`, which no line inserts, so nothing was there to delete: %s"
                                          named name "the name is wrong, or its insert was not recorded"))
     :past-end (nreverse past-end))))

(defun domepeeler--acting (recording)
  "The replicas of RECORDING that did something."
  (cl-loop for own across (domepeeler-recording-replicas recording)
           for replica from 0
           when (> (domepeeler--replica-operations own) 0) collect replica))

(defun domepeeler--without-operation (recording warned)
  (cl-loop for own across (domepeeler-recording-replicas recording)
           for entries across (domepeeler--warned-entries warned)
           for replica from 0
           when (= (domepeeler--replica-operations own) 0)
           collect (format "replica %d has %s: nothing that it showed is judged" replica
                           (if (domepeeler--entries-receiving entries) "receipts, but no operation" "no entry"))))

(defun domepeeler--different (recording warned late)
  "Whether the last lists that replicas showed differ as sets.
And which changes never arrived at which replica.  The lists of
those in LATE are older ones, which is said by itself too."
  (let (lists alike lacking (count 0))
    (cl-loop for entries across (domepeeler--warned-entries warned)
             for replica from 0
             for shown = (domepeeler--entries-shown entries)
             when (and shown (not (assq replica late)))
             do (push replica (alist-get (sort (delete-dups (split-string shown " " t)) #'string<) lists nil nil #'equal)))
    (dolist (replica (domepeeler--acting recording))
      (let ((changes (domepeeler--lacked recording warned replica)))
        (setq count (max count (length changes)))
        (when changes
          (push replica lacking)
          (push replica (alist-get (domepeeler--listed changes) alike nil nil #'equal)))))
    (let* ((never (mapconcat (lambda (pair)
                               (format "%s never arrived at replica%s %s" (car pair) (if (cddr pair) "s" "")
                                       (domepeeler--joined (reverse (cdr pair)))))
                             (reverse alike) "; "))
           (lost (if (and (= count 1) (null (cdr alike))) "Unless it was still on its way, it was lost or is held back" "Unless they were still on their way, they were lost or are held back"))
           (groups (mapcar (lambda (pair) (reverse (cdr pair))) (reverse lists)))
           (same (cl-loop for group in groups
                          when (cdr group) collect (format "%s show the same one" (domepeeler--joined group))))
           (told (format "the last lists of replicas %s differ%s" (domepeeler--joined (sort (apply #'append groups) #'<))
                         (if same (format " (%s)" (string-join same "; ")) ""))))
      (cond
       ((and (< (length groups) 2) (= count 0)) nil)
       ((< (length groups) 2) (list (format "in this recording %s. %s" never lost)))
       ((= count 0) (list told))
       ((cl-set-difference lacking (apply #'append groups)) (list told (format "in this recording %s. %s" never lost)))
       (t (list (format "%s: %s in this recording. %s" told never lost)))))))

(defun domepeeler--lacked (recording warned replica)
  "The changes that never arrived at REPLICA, with their lines.
None of an author of which it never hears."
  (let (found)
    (cl-loop for of across (domepeeler-recording-replicas recording)
             for author from 0
             for changes = (domepeeler--replica-changes of)
             for lines = (domepeeler--entries-lines (aref (domepeeler--warned-entries warned) author))
             for heard = (domepeeler--up-to of (domepeeler--has recording replica author))
             when (and (> heard 0) (/= author replica))
             do (cl-loop for place from (1+ heard) to (hash-table-count changes)
                         do (push (list (gethash place lines) author (gethash place changes)) found)))
    (mapcar (pcase-lambda (`(,line ,author ,n)) (format "%d.%d (line %d)" author n line))
            (sort found (lambda (one two) (< (car one) (car two)))))))

(defun domepeeler--unheard (recording)
  "Of replicas that did something, and never heard of a change of another."
  (cl-loop for replica in (domepeeler--acting recording)
           for others = (cl-loop for of across (domepeeler-recording-replicas recording)
                                 for author from 0
                                 for first = (gethash 1 (domepeeler--replica-changes of))
                                 when (and first (/= author replica) (> first (domepeeler--has recording replica author)))
                                 collect author)
           when others
           collect (format "replica %d never hears of replica%s %s: %s, %s. %s" replica (if (cdr others) "s" "")
                           (domepeeler--joined others) "no receipt brings it an insert or a delete from there"
                           "so nothing shows how it applies these"
                           "At the end of a session let everyone receive everything, and then read the list")))

(defun domepeeler--received-last (recording warned)
  "By replica the last receipts that bring changes, where it shows no list after them.
A view is none."
  (cl-loop for replica in (domepeeler--acting recording)
           for news = (domepeeler--news recording warned replica)
           when news collect (cons replica news)))

(defun domepeeler--unshown (warned late)
  (cl-loop for (replica . news) in late
           for viewed = (domepeeler--entries-viewed (aref (domepeeler--warned-entries warned) replica))
           collect (format "replica %d shows no list%s after it received %s: let each replica read at the end"
                           replica (if viewed " but a view" "") (domepeeler--listed news))))

(defun domepeeler--news (recording warned replica)
  "The receipts since REPLICA's last list that bring changes.
Each is told with its line."
  (let* ((n (domepeeler--entries-last (aref (domepeeler--warned-entries warned) replica)))
         (has (copy-sequence (gethash n (domepeeler--replica-pasts (domepeeler--of recording replica))
                                      (make-vector (length (domepeeler-recording-replicas recording)) 0)))))
    (aset has replica n)
    (cl-loop for (author n line) in (reverse (domepeeler--entries-since (aref (domepeeler--warned-entries warned) replica)))
             for past = (copy-sequence (gethash n (domepeeler--replica-pasts (domepeeler--of recording author))))
             do (aset past author n)
             when (let (new)
                    (cl-loop for of across (domepeeler-recording-replicas recording)
                             for other from 0
                             when (> (domepeeler--up-to of (aref past other)) (domepeeler--up-to of (aref has other)))
                             do (setq new t))
                    (setq has (cl-map 'vector #'max has past))
                    new)
             collect (format "%d.%d (in line %d)" author n line))))

(defun domepeeler--some (told what which)
  "The first that are TOLD, and how many more there are of WHAT, WHICH of them."
  (let ((more (- (length told) domepeeler--told)))
    (append (seq-take told domepeeler--told)
            (and (> more 0) (list (format "and %d more %s%s %s" more what (if (= more 1) "" "s") which))))))

(defun domepeeler--listed (changes)
  "The first of CHANGES, and how many more there are."
  (let ((more (- (length changes) domepeeler--few)))
    (domepeeler--joined (append (seq-take changes domepeeler--few) (and (> more 0) (list (format "%d more" more)))))))

(defun domepeeler--joined (words)
  (if (cdr words)
      (format "%s and %s" (mapconcat (lambda (word) (format "%s" word)) (butlast words) ", ") (car (last words)))
    (format "%s" (or (car words) ""))))

(provide 'domepeeler)
;;; domepeeler.el ends here
