;;; vault-mode.el --- Programs in Vault: colours, layout, and the language server by eglot -*- lexical-binding: t -*-

;; (add-to-list 'load-path "/path/to/editors/emacs")
;; (require 'vault-mode)
;; (add-hook 'vault-mode-hook 'eglot-ensure)

;;; Code:

(defconst vault-keywords
  '("abstract" "adopt" "as" "become" "bool" "break" "case" "continue" "else" "extern" "false" "focus" "if" "input" "int" "into"
    "more" "new" "open" "print" "release" "return" "stateset" "struct" "swap" "switch" "tracked" "true" "variant" "void" "while"))

(defvar vault-font-lock-keywords
  `((,(regexp-opt vault-keywords 'symbols) . font-lock-keyword-face)
    ("@\\s-*\\(?:[[:alpha:]_][[:alnum:]_]*\\|{[^}]*}\\)" . font-lock-type-face)
    ("'[[:alpha:]_][[:alnum:]_]*" . font-lock-constant-face)
    ("\\<[[:digit:]]+\\>" . font-lock-constant-face)))

(defvar vault-mode-syntax-table
  (let ((table (make-syntax-table)))
    (modify-syntax-entry ?/ ". 124b" table)
    (modify-syntax-entry ?* ". 23" table)
    (modify-syntax-entry ?\n "> b" table)
    (modify-syntax-entry ?_ "w" table)
    (modify-syntax-entry ?' "." table)
    table))

;;;###autoload
(define-derived-mode vault-mode prog-mode "Vault"
  "A mode for programs in Vault."
  (setq-local comment-start "// ")
  (setq-local comment-end "")
  (setq-local indent-tabs-mode nil)
  (setq-local tab-width 4)
  (setq font-lock-defaults '(vault-font-lock-keywords)))

;; Files of other languages end with .v, too.
(defconst vault-declaration "^\\s-*\\(?:\\(?:stateset\\|abstract\\|variant\\|extern\\)\\_>\\|// *vault\\_>\\)\\|\\_<tracked\\s-*[(@]"
  "What a program in Vault has, and a file of another language hardly.")

(defun vault-visits-program-p ()
  "Whether the file is a program in Vault: by its ending, by its text, or since a vault.json lies beside it."
  (and buffer-file-name
       (or (string-suffix-p ".vi" buffer-file-name)
           (and (string-suffix-p ".v" buffer-file-name)
                (or (file-exists-p (expand-file-name "vault.json" (file-name-directory buffer-file-name)))
                    (save-excursion
                      (goto-char (point-min))
                      (re-search-forward vault-declaration 20000 t)))))))

;;;###autoload
(add-to-list 'magic-mode-alist '(vault-visits-program-p . vault-mode))

(with-eval-after-load 'eglot
  (add-to-list 'eglot-server-programs '(vault-mode . ("vault" "lsp"))))

(provide 'vault-mode)
;;; vault-mode.el ends here
