;;; emacs.el --- types the lines of a file into Emacs, and writes what is seen after each -*- lexical-binding: t -*-

;; The file LINES_OF has a form a line; the file SEEN gets, for each, a line with the form and then what it said.
;; After a form the server has judged the document before the next one is evaluated.
;;
;; Nothing is compiled on the way: that `message' is another function here would have Emacs compile a stub of it into
;; an empty HOME.  The server gets as long as it takes to start, where the machine is loaded.

(setq native-comp-enable-subr-trampolines nil comp-enable-subr-trampolines nil
      native-comp-jit-compilation nil native-comp-deferred-compilation nil)
(require 'package)
(package-initialize)
(load (expand-file-name "unity-eglot.el" (getenv "EDITORS")) nil t)
(setq eglot-sync-connect t eglot-connect-timeout 300)

(defun seen-wait (before tick)
  "Wait until the server has judged the document, where TICK tells that it was changed since BEFORE."
  ;; (in a batch no timer of idleness tells the server of changes)
  (when (and (derived-mode-p 'unity-mode) (eglot-current-server)) (eglot--signal-textDocument/didChange))
  (let ((end (+ (float-time) 300)))
    (while (and (< (float-time) end)
                (not (or (> unity-judged before)
                         (and (> unity-judged 0) (= tick (buffer-chars-modified-tick))))))
      (accept-process-output nil 0.05))
    (accept-process-output nil 0.2)))

(let ((forms (with-temp-buffer (insert-file-contents (getenv "LINES_OF")) (split-string (buffer-string) "\n" t)))
      (out ""))
  (dolist (line forms)
    (let ((before unity-judged) (tick (buffer-chars-modified-tick)) (said '()))
      (cl-letf (((symbol-function 'message)
                 (lambda (form &rest words) (when form (push (apply #'format form words) said)))))
        (condition-case fault (eval (car (read-from-string line)) t)
          (error (push (format "%S" fault) said)))
        (when (and (derived-mode-p 'unity-mode) (not (eglot-current-server)))
          (apply #'eglot--connect (eglot--guess-contact)))
        (seen-wait before tick))
      (setq out (concat out line "\n" (string-join (reverse said) "\n") "\n"))))
  (with-temp-file (getenv "SEEN") (insert out)))
(kill-emacs 0)
