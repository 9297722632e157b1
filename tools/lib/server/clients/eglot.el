;;; eglot.el --- What someone does in Emacs with rule texts, by eglot  -*- lexical-binding: t; -*-

;;; Commentary:

;; Writes what was seen, as one JSON object, to the file SEEN.

;;; Code:

(require 'eglot)
(require 'json)

(defvar seen nil "What was seen, by names.")
(defvar folder (getenv "FOLDER") "The folder of the texts.")

(defun see (name value)
  "Keep VALUE by its NAME."
  (push (cons name value) seen)
  value)

(defun wait-until (test)
  "Wait until TEST returns something, ten seconds at most, and return that."
  (let ((until (+ (float-time) 10)) found)
    (while (and (not (setq found (funcall test))) (< (float-time) until))
      (accept-process-output nil 0.02))
    found))

(defun text ()
  "The text of the buffer."
  (buffer-substring-no-properties (point-min) (point-max)))

(defun diagnostics ()
  "Line, columns, type and sentence of each diagnostic."
  (mapcar (lambda (it)
            (let ((from (flymake-diagnostic-beg it)) (to (flymake-diagnostic-end it)))
              (vector (line-number-at-pos from)
                      (save-excursion (goto-char from) (1+ (current-column)))
                      (save-excursion (goto-char to) (1+ (current-column)))
                      (symbol-name (flymake-diagnostic-type it))
                      (flymake-diagnostic-text it))))
          (flymake-diagnostics)))

(defun do-when-idle ()
  "Do what eglot and Flymake do once Emacs is idle, which it never is in batch."
  (eglot--signal-textDocument/didChange)
  (flymake-start))

(defun wait-for-diagnostics (count)
  "Wait until there are COUNT diagnostics, and return them."
  (do-when-idle)
  (wait-until (lambda () (= (length (diagnostics)) count)))
  (vconcat (diagnostics)))

(defun place (word &optional more)
  "Go to WORD, and MORE characters further."
  (goto-char (point-min))
  (search-forward word)
  (goto-char (+ (match-beginning 0) (or more 0))))

(defun open (name)
  "Open the file NAME, with a server."
  (find-file (expand-file-name name folder))
  (unless (eglot-current-server)
    (apply #'eglot (append (eglot--guess-contact) '(nil))))
  (wait-until #'eglot-current-server))

(defun rules ()
  "Work on the rule text."
  (open "bus.rules")
  (see 'mode (symbol-name major-mode))
  (see 'mistake (wait-for-diagnostics 1))
  (place "VOLT <")
  (let ((last-nonmenu-event 'none))
    (eglot-code-actions (point) (+ (point) 4) "quickfix" t))
  (see 'fixed (text))
  (see 'rest (wait-for-diagnostics 0))
  (goto-char (point-max))
  (insert "rule HOT active fails 1 sequence 8 event info 1002 \"\" when VO")
  (let ((found (eglot-completion-at-point)))
    (see 'completion (vconcat (all-completions "VO" (nth 2 found)))))
  (insert "LTS > 9;\n")
  (see 'completed (wait-for-diagnostics 0))
  (place "VOLTS <" 1)
  (let (said)
    (eglot-hover-eldoc-function (lambda (text &rest _) (setq said text)))
    (see 'hover (substring-no-properties (or (wait-until (lambda () said)) ""))))
  (place "BUS u16be")
  (eglot-rename "MAIN_BUS")
  (see 'renamed (text))
  (eglot-format-buffer)
  (see 'formatted (text))
  (save-buffer)
  (see 'saved (wait-for-diagnostics 1)))

(defun scenario ()
  "Work on the scenario."
  (open "low.scenario")
  (see 'scenario (wait-for-diagnostics 1))
  (place "VOLTS=")
  (xref-find-definitions (xref-backend-identifier-at-point 'eglot))
  (see 'definition (vector (buffer-name) (line-number-at-pos) (1+ (current-column)))))

(defun work ()
  "Work on all, and end the server."
  (rules)
  (scenario)
  (see 'clients (length (apply #'append (hash-table-values eglot--servers-by-project))))
  (eglot-shutdown (eglot-current-server))
  (see 'stopped t))

(condition-case fault
    (let ((make-backup-files nil) (create-lockfiles nil))
      (work))
  (error (see 'fault (format "%S" fault))))
(let ((coding-system-for-write 'utf-8))
  (write-region (json-encode seen) nil (getenv "SEEN")))

;;; eglot.el ends here
