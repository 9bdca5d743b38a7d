;;; session.el --- A session in Emacs without a window: opens a file with an error by eglot, looks at it, takes the first cure, lays the
;;; text out, and goes on to a module, which is judged beside its interface. What it sees goes to the file that SEEN names, a line each.
(require 'cl-lib)
(require 'vault-mode)
(require 'eglot)
(require 'flymake)

(defconst vault-patience 600)
(defvar vault-seen '())
(defun vault-say (format &rest values)
  (push (replace-regexp-in-string "\n" "|" (apply #'format format values)) vault-seen))

(defun vault-wait (what holds)
  "Waits until HOLDS gives something; says WHAT if it is in vain."
  (let ((end (+ (float-time) vault-patience)))
    (while (and (not (funcall holds)) (< (float-time) end))
      (accept-process-output nil 0.05))
    (unless (funcall holds) (vault-say "waited in vain for %s" what))))

(defun vault-errors ()
  (flymake-diagnostics))

(defun vault-say-errors ()
  (dolist (it (vault-errors))
    (save-excursion
      (goto-char (flymake-diagnostic-beg it))
      (vault-say "error %d:%d %s" (line-number-at-pos) (1+ (current-column)) (flymake-diagnostic-text it)))))

(defun vault-visit (file)
  "Opens FILE, and waits for its errors."
  (find-file file)
  (vault-say "mode %s" major-mode)
  (setq-local eglot-server-programs
              `((vault-mode . (,(getenv "VAULT") "lsp" "--seconds" ,(number-to-string vault-patience)))))
  (apply #'eglot--connect (eglot--guess-contact))
  (vault-wait "the server" #'eglot-managed-p)
  (flymake-start)
  (vault-wait "errors" #'vault-errors)
  (vault-say-errors)
  (goto-char (flymake-diagnostic-beg (car (vault-errors)))))

(defun vault-request (method params)
  (jsonrpc-request (eglot-current-server) method params :timeout vault-patience))

(defun vault-cure ()
  "Takes the first cure of the error at point, and waits until there is none."
  (let ((found (aref (vault-request :textDocument/codeAction
                                    `(,@(list :textDocument (eglot--TextDocumentIdentifier))
                                      :range (:start ,(eglot--pos-to-lsp-position) :end ,(eglot--pos-to-lsp-position))
                                      :context (:diagnostics [])))
                     0)))
    (vault-say "cure %s" (plist-get found :title))
    (eglot--apply-workspace-edit (plist-get found :edit))
    (eglot--signal-textDocument/didChange)
    (vault-wait "no errors" (lambda () (null (vault-errors))))
    (vault-say "errors left %d" (length (vault-errors)))))

(setq eglot-autoshutdown nil
      eglot-confirm-server-initiated-edits nil
      eglot-sync-connect vault-patience
      eglot-connect-timeout vault-patience
      make-backup-files nil)

(vault-visit (getenv "FILE"))
(vault-say "keyword %s" (progn (font-lock-ensure) (save-excursion (goto-char (point-min)) (get-text-property (point) 'face))))
(vault-say "hover %s" (plist-get (plist-get (vault-request :textDocument/hover (eglot--TextDocumentPositionParams)) :contents) :value))
(vault-cure)
(goto-char (point-min))
(insert "// first\n\n\n")
(eglot--signal-textDocument/didChange)
(eglot-format-buffer)
(vault-say "first lines %s" (buffer-substring (point-min) (save-excursion (goto-char (point-min)) (forward-line 3) (point))))
(set-buffer-modified-p nil)

(vault-visit (getenv "MODULE"))
(vault-cure)
(set-buffer-modified-p nil)
(eglot-shutdown (eglot-current-server))
(with-temp-file (getenv "SEEN")
  (insert (mapconcat #'identity (reverse vault-seen) "\n")))
;;; session.el ends here
