;;; Emacs as a client: `PATTERNS=PROGRAM FILE=FILE emacs --batch -l .ci/emacs.el`, with eglot. It opens the file, writes what is reported, fixes
;;; what can be fixed in its first line, formats it, fixes all, and saves it.
(package-initialize)
(require 'eglot)
(require 'flymake)

(define-derived-mode patterns-mode fundamental-mode "Patterns")
(add-to-list 'eglot-server-programs `(patterns-mode . (,(getenv "PATTERNS") "server")))
(setq make-backup-files nil eglot-autoshutdown nil eglot-sync-connect 60 eglot-connect-timeout 60)

(defun wait-until (is-so what)
  "Waits until `is-so' returns a value, and returns that."
  (let ((end (time-add nil 60)) found)
    (while (not (setq found (funcall is-so)))
      (when (time-less-p end nil) (error "%s" what))
      (accept-process-output nil 0.05))
    found))

(find-file (getenv "FILE"))
(patterns-mode)
(apply #'eglot (eglot--guess-contact))
(flymake-start)
(dolist (it (sort (wait-until #'flymake-diagnostics "nothing is reported")
                  (lambda (one other) (< (flymake-diagnostic-beg one) (flymake-diagnostic-beg other)))))
  (princ (format "%d: %s\n" (line-number-at-pos (flymake-diagnostic-beg it))
                 (replace-regexp-in-string "\\`patterns [^:]*: \\|\n.*" "" (flymake-diagnostic-text it)))))
(defun act (end &rest kind)
  "Does the first action, of this kind if it is given, before the position `end', and writes what it is called."
  (let ((action (seq-elt (apply #'eglot-code-actions (point-min) end kind) 0)))
    (princ (concat (plist-get action :title) "\n"))
    (eglot--apply-workspace-edit (plist-get action :edit))))

(act (line-end-position))
(eglot-format-buffer)
(act (point-max) "source.fixAll.patterns")
(save-buffer)
(eglot-shutdown (eglot-current-server))
