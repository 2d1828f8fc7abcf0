;;; crdt.el, and how it is recorded. Run it by record.py; it reads plans and writes traces.  -*- lexical-binding: t -*-

(load (expand-file-name "../domepeeler.el" (file-name-directory load-file-name)) nil t)
(package-initialize)
(require 'crdt)

(defconst group-first #x4e00 "The engine's list is a buffer's text: the element eN is the letter this + N.")

(defvar group-recording nil)
(defvar group-buffers nil "The buffer of each replica.")
(defvar group-messages nil "The messages of each operation, by author and number; a read has none.")
(defvar group-sent nil "What the engine has sent since the last operation, the last message first.")

;; The engine hands each message to this function; here they go to `group-sent' instead of into a network.
(advice-add 'crdt--broadcast-maybe :override (lambda (message &rest _) (push (read message) group-sent)))

(defun group-begin (replicas seed)
  (random seed) ; the engine makes its ids by `random'
  (mapc (lambda (buffer) (let ((kill-buffer-hook nil)) (kill-buffer buffer))) group-buffers)
  (setq group-recording (domepeeler-new replicas)
        group-messages (make-hash-table :test 'equal)
        group-buffers (cl-loop for replica below replicas collect (group-buffer replica))))

(defun group-buffer (replica)
  "A buffer that crdt-mode shares."
  (with-current-buffer (generate-new-buffer "replica")
    (setq crdt--buffer-network-name "list"
          crdt--session (crdt--make-session :local-id replica :local-clock 0 :local-name "" :name ""
                                            :contact-table (make-hash-table) :buffer-table (make-hash-table)))
    (crdt-mode)
    (current-buffer)))

(defun group-names (replica)
  "The replica's list."
  (with-current-buffer (nth replica group-buffers)
    (mapcar (lambda (letter) (format "e%d" (- letter group-first))) (buffer-string))))

(defun group-change (replica edit record)
  "One change by the user; the messages go out under the operation's name."
  (setq group-sent nil)
  (with-current-buffer (nth replica group-buffers) (funcall edit))
  (let ((n (funcall record (group-names replica)))) ; after the local change
    (puthash (cons replica n)
             (cl-remove-if-not (lambda (message) (memq (car message) '(insert delete))) (reverse group-sent))
             group-messages)))

(defun group-insert (replica name position)
  (group-change replica
                (lambda ()
                  (goto-char (+ (point-min) position))
                  (insert (+ group-first (string-to-number (substring name 1)))))
                (lambda (names) (domepeeler-insert group-recording replica name position names))))

(defun group-delete (replica name place)
  (group-change replica
                (lambda () (delete-region (+ (point-min) place) (+ (point-min) place 1)))
                (lambda (names) (domepeeler-delete group-recording replica name names))))

(defun group-read (replica)
  (domepeeler-read group-recording replica (group-names replica)))

(defun group-take (replica author n)
  "What the engine does with a message from its network."
  (with-current-buffer (nth replica group-buffers)
    (let ((crdt--inhibit-update t))
      (dolist (message (gethash (cons author n) group-messages))
        (pcase message
          (`(insert ,_ ,id ,hint ,content) (crdt--remote-insert (base64-decode-string id) hint content))
          (`(delete ,_ ,hint . ,ids)
           (crdt--remote-delete hint (mapcar (lambda (pair) (list (car pair) (base64-decode-string (cadr pair))))
                                             ids)))))))
  (domepeeler-received group-recording replica author n)) ; after the remote change was applied

(defun group-play (words)
  "One line of a plan. What the list must have and has not turns an operation into a read, which shows it."
  (let* ((replica (string-to-number (car words)))
         (names (group-names replica))
         (place (cl-position (car (last words)) names :test #'equal)))
    (pcase (cdr words)
      (`("take" ,_ ":" . ,operations)
       (dolist (operation operations)
         (apply #'group-take replica (mapcar #'string-to-number (split-string operation "\\.")))))
      (`("ins" ,name "at" ,asked) (group-insert replica name (min (string-to-number asked) (length names))))
      ((and `("ins" ,name ,beside ,_) (guard place))
       (group-insert replica name (+ place (if (equal beside "after") 1 0))))
      ((and `("del" ,name) (guard place)) (group-delete replica name place))
      (_ (group-read replica)))))

(let (line stopped)
  (while (setq line (ignore-errors (read-from-minibuffer "")))
    (let ((words (split-string line " ")))
      (condition-case why
          (cond ((equal (car words) "plan")
                 (setq stopped nil)
                 (group-begin (string-to-number (nth 1 words)) line))
                ((equal (car words) "end")
                 (princ (concat (unless stopped (domepeeler-text group-recording)) "end\n")))
                ((not stopped) (group-play words)))
        (error (setq stopped t)
               (message "crdt_el.el: the engine stopped: %S" why))))))
