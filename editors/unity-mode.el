;;; unity-mode.el --- UNITY documents: colours, comments and checks -*- lexical-binding: t -*-

;;; Commentary:

;; Written by scripts/editors.sh.  `M-x compile' checks the document by unity-check, and `M-x next-error' goes to the
;; place that the answer names.

;;; Code:

(defvar unity-mode-check "unity-check --short"
  "The command that checks a document, before its name.")

(defconst unity-mode-words
  '((font-lock-keyword-face "unity" "program" "declare" "always" "initially" "start" "assign" "end" "proof"
      "schedule" "certificates")
    (font-lock-function-name-face "defined" "invariant" "unless" "stable" "ensures" "leadsto")
    (font-lock-keyword-face "and" "or" "not" "all" "any" "sum")
    (font-lock-type-face "boolean" "array" "of")
    (font-lock-constant-face "true" "false")
    (font-lock-builtin-face "if" "by" "using" "with" "text" "weaken" "conj" "simpleconj" "disj" "simpledisj"
      "cancel" "from" "union" "imply" "trans" "either" "exists" "induct" "psp" "case" "split" "round" "div"
      "mod" "quot" "share" "until" "detects" "constant" "complete" "superpose" "fixed"))
  "The reserved words, with the faces in which they are shown.")

(defconst unity-mode-keywords
  (append (mapcar (lambda (kind) (cons (regexp-opt (cdr kind) 'words) (list 1 `(quote ,(car kind)))))
                  unity-mode-words)
          '(("\\_<[0-9]+\\_>" . font-lock-constant-face)
            ("\\_<\\([[:alpha:]][[:alnum:]_]*\\)\\(?:([^()]*)\\)?[ \t]*:[^:=]"
             1 font-lock-variable-name-face)))
  "What `font-lock-mode' shows.")

(defvar unity-mode-syntax-table
  (let ((table (make-syntax-table)))
    (modify-syntax-entry ?# "<" table)
    (modify-syntax-entry ?\n ">" table)
    (modify-syntax-entry ?_ "_" table)
    (modify-syntax-entry ?\" "." table)
    table)
  "Letters and comments of UNITY documents.")

;;;###autoload
(define-derived-mode unity-mode prog-mode "Unity"
  "A mode for UNITY documents."
  (setq-local comment-start "# ")
  (setq-local comment-end "")
  (setq-local comment-start-skip "#+[ \t]*")
  (setq-local font-lock-defaults '(unity-mode-keywords))
  (when buffer-file-name
    (setq-local compile-command (concat unity-mode-check " " (shell-quote-argument buffer-file-name)))))

;;;###autoload
(add-to-list 'auto-mode-alist '("\\.unity\\'" . unity-mode))

(provide 'unity-mode)

;;; unity-mode.el ends here
