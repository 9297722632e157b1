;;; needlemauve-mode.el --- Limit Checker rules, schedules and scenarios  -*- lexical-binding: t; -*-

;; Version: 0.10.0
;; Package-Requires: ((emacs "26.1"))
;; Keywords: languages

;;; Commentary:

;; Three major modes, by the ends of file names: `needlemauve-rules-mode' (.rules), `needlemauve-schedule-mode' (.schedule)
;; and `needlemauve-scenario-mode' (.scenario).  In rules M-x compile offers `flight_tools check', whose messages lead to
;; their places.  M-x eglot starts `flight_tools lsp', one server for all three.

;;; Code:

(require 'compile)
(defvar eglot-server-programs)

(defconst needlemauve-types
  '("u8" "i8" "u16be" "u16le" "i16be" "i16le" "u32be" "u32le" "i32be" "i32le")
  "The types of fields.")

(defconst needlemauve-rules-items '("packet" "field" "rule")
  "The words that begin an item of a rule text.")

(defconst needlemauve-rules-clauses
  '("mid" "length" "at" "mask" "stale" "fails" "sequence" "event" "report" "when")
  "The words that begin a clause of an item.")

(defconst needlemauve-rules-operators '("or" "xor" "and" "not")
  "The operators of conditions that are words.")

(defconst needlemauve-rules-constants
  '("active" "passive" "disabled" "debug" "info" "error" "critical")
  "The states of rules, and the types of events.")

(defconst needlemauve-schedule-statements '("slots" "sample" "housekeeping")
  "The words that say what a line of a schedule is.")

(defconst needlemauve-schedule-constants '("age" "keep")
  "What a sample does to the age of fields.")

(defconst needlemauve-scenario-moments '("at" "after" "from" "by" "until" "each")
  "The words for times in scenarios.")

(defconst needlemauve-scenario-statements
  '("fields" "telemetry" "command" "packet" "record" "file" "half" "wdt" "adt"
    "tick" "sample" "housekeeping" "start" "stop" "restart" "reload"
    "load" "validate" "activate" "abort" "mode" "state" "filter" "ramp" "repeat")
  "The words that begin a line of a scenario, and kinds of records.")

(defconst needlemauve-scenario-expectations '("expect" "no" "sequence" "event" "result")
  "The words of expectations.")

(defconst needlemauve-scenario-constants
  '("active" "passive" "disabled" "off" "all" "age" "keep" "none" "pass" "fail" "stale" "error")
  "States, results and ages.")

(defconst needlemauve-number "-?\\_<\\(?:0x[[:xdigit:]]+\\|[0-9]+\\(?:\\.[0-9]+\\)?\\)\\_>"
  "A number.")

(defun needlemauve--words (words face)
  "Return the rule of font lock that gives each of WORDS this FACE."
  (cons (regexp-opt words 'symbols) face))

(defconst needlemauve-rules-font-lock
  (list (needlemauve--words needlemauve-rules-items 'font-lock-keyword-face)
        (needlemauve--words needlemauve-rules-clauses 'font-lock-keyword-face)
        (needlemauve--words needlemauve-rules-operators 'font-lock-builtin-face)
        (needlemauve--words needlemauve-types 'font-lock-type-face)
        (needlemauve--words needlemauve-rules-constants 'font-lock-constant-face)
        (cons needlemauve-number 'font-lock-constant-face)))

(defconst needlemauve-schedule-font-lock
  (list (needlemauve--words needlemauve-schedule-statements 'font-lock-keyword-face)
        (needlemauve--words needlemauve-schedule-constants 'font-lock-constant-face)
        (cons needlemauve-number 'font-lock-constant-face)))

(defconst needlemauve-scenario-font-lock
  (list (needlemauve--words needlemauve-scenario-moments 'font-lock-builtin-face)
        (needlemauve--words needlemauve-scenario-statements 'font-lock-keyword-face)
        (needlemauve--words needlemauve-scenario-expectations 'font-lock-function-name-face)
        (needlemauve--words needlemauve-types 'font-lock-type-face)
        (needlemauve--words needlemauve-scenario-constants 'font-lock-constant-face)
        (cons needlemauve-number 'font-lock-constant-face)))

(defvar needlemauve-mode-syntax-table
  (let ((table (make-syntax-table)))
    (modify-syntax-entry ?# "<" table)
    (modify-syntax-entry ?\n ">" table)
    (modify-syntax-entry ?_ "_" table)
    (modify-syntax-entry ?. "_" table)
    (modify-syntax-entry ?\\ "." table)
    table)
  "The syntax table: `#' begins a comment, and a string has no escapes.")

(define-derived-mode needlemauve-mode prog-mode "Needlemauve"
  "What the modes for rules, schedules and scenarios have in common."
  :syntax-table needlemauve-mode-syntax-table
  (setq-local comment-start "# ")
  (setq-local comment-end "")
  (setq-local indent-tabs-mode nil))

;;;###autoload
(define-derived-mode needlemauve-rules-mode needlemauve-mode "Rules"
  "A mode for rule texts."
  (setq-local font-lock-defaults '(needlemauve-rules-font-lock))
  (setq-local fill-column 100)
  (when buffer-file-name
    (setq-local compile-command
                (concat "flight_tools check " (shell-quote-argument (file-name-nondirectory buffer-file-name))))))

;;;###autoload
(define-derived-mode needlemauve-schedule-mode needlemauve-mode "Schedule"
  "A mode for schedules."
  (setq-local font-lock-defaults '(needlemauve-schedule-font-lock)))

;;;###autoload
(define-derived-mode needlemauve-scenario-mode needlemauve-mode "Scenario"
  "A mode for scenarios."
  (setq-local font-lock-defaults '(needlemauve-scenario-font-lock)))

(add-to-list 'compilation-error-regexp-alist-alist
             '(needlemauve "^\\(.+?\\):\\([0-9]+\\):\\([0-9]+\\): \\(?:error\\|\\(warning\\)\\)\\[" 1 2 3 (4)))
(add-to-list 'compilation-error-regexp-alist 'needlemauve)

;;;###autoload
(dolist (it '(("\\.rules\\'" . needlemauve-rules-mode)
              ("\\.schedule\\'" . needlemauve-schedule-mode)
              ("\\.scenario\\'" . needlemauve-scenario-mode)))
  (add-to-list 'auto-mode-alist it))

;; An older eglot gives all buffers of a server the id of its first mode.  It gets an id that the server does not know, and the server
;; goes by the ends of file names.
(with-eval-after-load 'eglot
  (add-to-list 'eglot-server-programs
               '((needlemauve-rules-mode needlemauve-schedule-mode needlemauve-scenario-mode) . ("flight_tools" "lsp")))
  (when (fboundp 'eglot--languageId)
    (put 'needlemauve-rules-mode 'eglot-language-id "lcrules")
    (put 'needlemauve-schedule-mode 'eglot-language-id "lcschedule")
    (put 'needlemauve-scenario-mode 'eglot-language-id "lcscenario")))

(provide 'needlemauve-mode)
;;; needlemauve-mode.el ends here
