;;; Makes the calls that stand on standard input, in fields between tabs: see tests/tools/recorders.py.  -*- lexical-binding: t -*-

(load (expand-file-name "../../../recorders/domepeeler.el" (file-name-directory load-file-name)) nil t)

(defvar driver-untyped
  (list
   (lambda () (domepeeler-new "2"))
   (lambda () (domepeeler-new t))
   (lambda () (domepeeler-read (domepeeler-new 2) 1.0 nil))
   (lambda () (domepeeler-read (domepeeler-new 2) nil nil))
   (lambda () (domepeeler-insert (domepeeler-new 2) 0 "a" 0.5 '("a")))
   (lambda () (domepeeler-insert (domepeeler-new 2) 0 "a" "0" '("a")))
   (lambda () (domepeeler-insert (domepeeler-new 2) 0 7 0 nil))
   (lambda () (domepeeler-read (domepeeler-new 2) 0 '("a" 7)))
   (lambda () (domepeeler-read (domepeeler-new 2) 0 "ab"))
   (lambda () (domepeeler-read (domepeeler-new 2) 0 t))
   (lambda () (domepeeler-insert (domepeeler-new 2) 0 "a" 0 7))
   (lambda () (domepeeler-read (domepeeler-new 2) (concat "::\e\n" (make-string 41 ?1)) nil))
   (lambda () (domepeeler-read (domepeeler-new 2) (intern "::a\nb") nil)))
  "Calls that only a language without types can make, and that a trace can't say.")

(defvar driver-recording nil)

(defun driver-lists (words)
  "The lists in WORDS, which stand with a word `/' between two."
  (let ((lists (list nil)))
    (dolist (word words)
      (if (string= word "/") (push nil lists) (push word (car lists))))
    (reverse (mapcar #'reverse lists))))

(defun driver-call (words)
  (let ((number (string-to-number (or (nth 1 words) "0"))))
    (pcase (car words)
      ("new" (setq driver-recording (apply #'domepeeler-new (mapcar #'string-to-number (cdr words)))) "ok")
      ((or "stop" "stop_weak")
       (setq driver-recording (domepeeler-new number (and (nth 2 words) (string-to-number (nth 2 words)))
                                              (if (equal (car words) "stop") t 'weak)))
       "ok")
      ("insert" (format "ok %d" (domepeeler-insert driver-recording number (nth 2 words)
                                                   (string-to-number (nth 3 words)) (nthcdr 4 words))))
      ("delete" (format "ok %d" (domepeeler-delete driver-recording number (nth 2 words) (nthcdr 3 words))))
      ("read" (format "ok %d" (domepeeler-read driver-recording number (nthcdr 2 words))))
      ("view" (format "ok %d" (domepeeler-view driver-recording number (nthcdr 2 words))))
      ("received" (domepeeler-received driver-recording number (string-to-number (nth 2 words))
                                       (string-to-number (nth 3 words)))
       "ok")
      ("received_clock" (domepeeler-received-clock driver-recording number (string-to-number (nth 2 words))
                                                   (mapcar #'string-to-number (nthcdr 4 words))
                                                   (string-to-number (nth 3 words)))
       "ok")
      ("clock" (string-join (cons "ok" (mapcar #'number-to-string (domepeeler-clock driver-recording number))) " "))
      ("delivered" (domepeeler-delivered driver-recording (driver-lists (cdr words))) "ok")
      ("note" (domepeeler-note driver-recording (nth 1 words)) "ok")
      ("lines" (format "ok %d" (domepeeler-lines driver-recording)))
      ("warnings" (concat (mapconcat (lambda (warning) (format "| %s\n" warning)) (domepeeler-warnings driver-recording) "") "ok"))
      ("id_of" (let ((pair (assoc (nth 1 words) (domepeeler-ids driver-recording)))) (if pair (concat "ok " (cdr pair)) "none")))
      ("save" (domepeeler-save driver-recording (nth 1 words)) "ok")
      ("judge" (let ((report (domepeeler-judge driver-recording)))
                 (setf (alist-get 'warnings report) (vconcat (alist-get 'warnings report))) ; or an empty list were null
                 (concat "report " (json-encode report))))
      ("weak" (driver-weak (domepeeler-judge driver-recording nil t)))
      ("explain_weak" (concat (replace-regexp-in-string "\\(.*\\)\n" "| \\1\n" (domepeeler-explain driver-recording nil t)) "ok"))
      ("explain" (concat (replace-regexp-in-string "\\(.*\\)\n" "| \\1\n" (domepeeler-explain driver-recording)) "ok"))
      ("untyped" (funcall (nth number driver-untyped)))
      (_ (concat (replace-regexp-in-string "^\\(.\\)" "| \\1" (domepeeler-text driver-recording)) "ok")))))

(defun driver-weak (report)
  "Whether REPORT passes where the weak list specification alone is asked for.
If not, the first reason."
  (let ((warnings (alist-get 'warnings report))
        (verdict (cl-loop for key in '(verdict k at first again) when (alist-get key report) collect (format "%s" (alist-get key report)))))
    (cond
     (warnings (concat "fails " (car warnings)))
     ((eq (alist-get 'weak report) t) "passes")
     (t (concat "fails " (string-join verdict " "))))))

(defun driver-answer (words)
  (condition-case why
      (driver-call words)
    (domepeeler-not-causal (concat "uncausal " (cadr why)))
    (domepeeler-full (concat "full " (cadr why)))
    (domepeeler-refused (concat "refused " (cadr why)))
    (domepeeler-not-accepted (concat "stopped " (string-join (split-string (cadr why) "\n") " / ")))
    (error (concat "failed " (error-message-string why)))))

(with-temp-buffer
  (insert-file-contents "/dev/stdin")
  (dolist (line (butlast (split-string (buffer-string) "\n")))
    ;; A record separator stands for a line feed in a field.
    (princ (concat (driver-answer (split-string (string-replace "\x1e" "\n" line) "\t")) "\n"))))
