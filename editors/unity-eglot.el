;;; unity-eglot.el --- UNITY documents in Emacs, with eglot -*- lexical-binding: t -*-

;; (load "FOLDER/editors/unity-eglot.el") in the settings.  It wants eglot, which Emacs 29 has and Debian's elpa-eglot.
;; It starts the language server beside it for each document, and has commands: unity-why, unity-run, unity-spin,
;; unity-prove, unity-start, unity-using and unity-drop, each for the step at point.

;;; Code:

(require 'eglot)
(require 'flymake)
(require 'json)

(defconst unity-editors (file-name-directory (or load-file-name buffer-file-name))
  "The folder of this file.")

(defconst unity-tool (expand-file-name "../scripts/unity-tool" unity-editors)
  "The tool that has the language server.")

(defvar unity-judged 0 "How often the server has judged a document.")

(defun unity-keywords ()
  "The patterns of the words of the language, from the table of all editors."
  (let* ((table (let ((json-array-type 'list)) (json-read-file (expand-file-name "words.json" unity-editors))))
         (words (lambda (kind) (regexp-opt (alist-get kind table) 'words))))
    (list (cons (funcall words 'sections) 'font-lock-keyword-face)
          (cons (funcall words 'claims) 'font-lock-builtin-face)
          (cons (funcall words 'keywords) 'font-lock-keyword-face)
          (cons (funcall words 'operators) 'font-lock-builtin-face)
          (cons (funcall words 'types) 'font-lock-type-face)
          (cons (funcall words 'values) 'font-lock-constant-face))))

(unless (or (fboundp 'unity-mode) (load (expand-file-name "unity-mode.el" unity-editors) t t))
  (define-derived-mode unity-mode prog-mode "UNITY"
    "The mode of UNITY documents."
    (modify-syntax-entry ?# "<")
    (modify-syntax-entry ?\n ">")
    (setq-local comment-start "# ")
    (setq-local font-lock-defaults (list (unity-keywords)))))

(add-to-list 'auto-mode-alist '("\\.unity\\'" . unity-mode))
(add-to-list 'eglot-server-programs (list 'unity-mode "python3" unity-tool "lsp"))
(add-hook 'unity-mode-hook #'eglot-ensure)

(cl-defmethod eglot-handle-notification (_server (_method (eql $/unity/judged)) &rest _)
  "Count what the server has judged."
  (setq unity-judged (1+ unity-judged)))

(defun unity-why ()
  "Say what was found of the line at point."
  (interactive)
  (let ((here (line-number-at-pos)))
    (dolist (found (flymake-diagnostics))
      (when (<= (line-number-at-pos (flymake-diagnostic-beg found)) here
                (line-number-at-pos (flymake-diagnostic-end found)))
        (message "%s" (flymake-diagnostic-text found))))))

(defun unity-act (name)
  "Carry out the action NAME of the server; its text comes as an edit, and its word is said."
  (eglot--signal-textDocument/didChange)
  (let* ((eglot-confirm-server-initiated-edits nil)
         (place (eglot--pos-to-lsp-position))
         (words (list :command (concat "unity." name)
                      :arguments (vector (plist-get (eglot--TextDocumentIdentifier) :uri) place)))
         (answer (jsonrpc-request (eglot--current-server-or-lose) :workspace/executeCommand words :timeout 300)))
    (message "%s" (plist-get answer :says))))

(defun unity-run () "Find a run that violates the proof." (interactive) (unity-act "run"))
(defun unity-spin () "Ask SPIN about the step at point." (interactive) (unity-act "spin"))
(defun unity-prove () "Prove, and insert the certificates." (interactive) (unity-act "prove"))
(defun unity-start () "Start at the refuting state." (interactive) (unity-act "start"))
(defun unity-using () "Drop the names after using that are not needed." (interactive) (unity-act "using"))
(defun unity-drop () "Drop the certificates." (interactive) (unity-act "drop"))

(provide 'unity-eglot)
;;; unity-eglot.el ends here
