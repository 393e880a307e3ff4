;;; station-mode.el --- Catalogue scripts  -*- lexical-binding: t -*-

;;; Commentary:

;; A mode for catalogue scripts: colours, tabs, and the server `station lsp' for
;; eglot (in Emacs from 29 on, else the package of this name).  Put this file on the
;; load path, and into the init file:
;;   (require 'station-mode)
;;   (add-hook 'station-mode-hook #'eglot-ensure)

;;; Code:

(defconst station-mode-words
  '("class" "field" "method" "requires" "ensures" "main" "var" "set" "let" "add" "sub"
    "new" "call" "open" "shut" "return" "assert" "release" "if" "else" "join" "loop"
    "again" "end")
  "The words that begin a line.")

(defconst station-mode-atoms
  '("acc" "read" "chain" "eq" "ne")
  "The words that begin an atom.")

(defconst station-mode-font-lock-keywords
  `((,(concat "^\\(" (regexp-opt station-mode-words) "\\)\\(?:\t\\|$\\)")
     1 font-lock-keyword-face)
    (,(concat "\t\\(" (regexp-opt station-mode-atoms) "\\)\t") 1 font-lock-builtin-face)
    ("^requires\t\\(\\*\\)$" 1 font-lock-builtin-face)
    ("\t\\(int\\)\\>" 1 font-lock-type-face)
    ("\t\\(null\\|this\\|result\\)\\>" 1 font-lock-constant-face)
    ("\t\\(0\\|-?[1-9][0-9]*\\)\\>" 1 font-lock-constant-face)
    ("^class\t\\([A-Za-z][A-Za-z0-9]*\\)" 1 font-lock-function-name-face)
    ("^\\(?:field\\|var\\|method\\)\t[^\t\n]*\t\\([A-Za-z][A-Za-z0-9]*\\)"
     1 font-lock-function-name-face)
    ("\t\\([A-Za-z][A-Za-z0-9]*\\(?:\\.[A-Za-z][A-Za-z0-9]*\\)?\\)"
     1 font-lock-variable-name-face keep)
    ("[^\t\n!-~]" 0 font-lock-warning-face t))
  "The colours.")

(defvar station-mode-map
  (let ((map (make-sparse-keymap)))
    ;; Fields are separated by one tab, and no line is indented.
    (define-key map (kbd "TAB") #'self-insert-command)
    map)
  "The keys.")

;;;###autoload
(define-derived-mode station-mode prog-mode "Station"
  "Catalogue scripts."
  (setq-local indent-tabs-mode t)
  (setq-local tab-width 8)
  (setq-local indent-line-function #'ignore)
  (setq-local electric-indent-inhibit t)
  (setq-local require-final-newline t)
  (setq-local font-lock-defaults '(station-mode-font-lock-keywords t)))

;;;###autoload
(add-to-list 'auto-mode-alist '("\\.script\\'" . station-mode))

(defvar eglot-server-programs)
(with-eval-after-load 'eglot
  (add-to-list 'eglot-server-programs '(station-mode . ("station" "lsp"))))

(provide 'station-mode)
;;; station-mode.el ends here
