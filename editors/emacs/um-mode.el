;;; um-mode.el --- Programs with units of measure  -*- lexical-binding: t; -*-

;; Package-Requires: ((emacs "27.1"))
;; Keywords: languages

;;; Commentary:

;; Colours, comments and indentation for files `.um', and the language server `um lsp' for Eglot.
;; Eglot comes with Emacs 29; Debian 12 has it as elpa-eglot.
;;
;;   (add-to-list 'load-path "/path/to/umc/editors/emacs")
;;   (require 'um-mode)
;;   (add-hook 'um-mode-hook #'eglot-ensure)

;;; Code:

(require 'prog-mode)
(require 'subr-x)

(defgroup um nil
  "Programs with units of measure."
  :group 'languages)

(defcustom um-command '("um" "lsp")
  "The command that starts the language server, a list of words."
  :type '(repeat string))

(defcustom um-indent-offset 2
  "How far a line is indented that goes on with what the line before began."
  :type 'integer
  :safe #'integerp)

(defconst um--name "[[:alpha:]_][[:alnum:]_]*"
  "A name.")

(defconst um--attribute "\\[<[[:space:]]*Measure[[:space:]]*>[[:space:]]*\\]"
  "What stands before the declaration of a measure.")

(defvar um-mode-syntax-table
  (let ((table (make-syntax-table)))
    (modify-syntax-entry ?/ ". 12" table)
    (modify-syntax-entry ?\n ">" table)
    (modify-syntax-entry ?_ "w" table)
    (modify-syntax-entry ?' "'" table)
    (modify-syntax-entry ?\" "." table)
    (dolist (sign '(?+ ?- ?* ?^ ?= ?< ?> ?& ?| ?: ?\; ?, ?.))
      (modify-syntax-entry sign "." table))
    table)
  "The syntax of characters in `um-mode'.")

(defun um--words (&rest words)
  "An expression for one of WORDS."
  (regexp-opt words 'words))

(defun um--match-unit (limit)
  "Search for a measure or a unit variable inside a unit, up to LIMIT."
  (let (found)
    (while (and (not found)
                (re-search-forward (concat "'?\\_<\\(?:" um--name "\\)") limit t))
      (setq found (save-match-data (um--in-unit-p (match-beginning 0)))))
    found))

(defun um--in-unit-p (position)
  "Whether a unit is written at POSITION.
It is inside `<' and `>', or after the `=' of an abbreviation."
  (unless (save-excursion (nth 4 (syntax-ppss position)))
    (save-excursion
      (goto-char position)
      (skip-chars-backward "[:alnum:]_'*/^(), \t\n-" (max (point-min) (- position 400)))
      (let ((before (char-before)))
	(cond ((eq before ?<) (backward-char)
               (or (looking-back "[0-9]" (1- (point)))
                   (looking-back "\\_<num[[:space:]]*" (line-beginning-position))
                   (looking-back (concat ":[[:space:](]*" um--name "[[:space:]]*") (line-beginning-position))))
              ((eq before ?=)
               (looking-back (concat um--attribute "[[:space:]]*type[[:space:]]+" um--name "[[:space:]]*=")
                             (line-beginning-position))))))))

(defvar um-font-lock-keywords
  `((,(concat "\\(" um--attribute "\\)[[:space:]]*\\(type\\)[[:space:]]+\\(" um--name "\\)")
     (1 font-lock-preprocessor-face) (2 font-lock-keyword-face) (3 font-lock-constant-face))
    (,(concat "\\_<type[[:space:]]+\\(" um--name "\\)") 1 font-lock-type-face)
    (,um--attribute . font-lock-preprocessor-face)
    (,(concat "\\_<let[[:space:]]+\\(?:rec[[:space:]]+\\)?\\(?:rec\\_>\\|_\\_>\\|\\(" um--name "\\)\\)")
     1 font-lock-function-name-face nil t)
    (,(um--words "let" "rec" "in" "if" "then" "else" "match" "with" "type") . font-lock-keyword-face)
    (,(um--words "not" "pown") . font-lock-builtin-face)
    (,(um--words "true" "false") . font-lock-constant-face)
    (,(um--words "num" "bool" "list") . font-lock-type-face)
    (um--match-unit . font-lock-constant-face)
    (,(concat "'" um--name) . font-lock-variable-name-face)
    (,(concat "[^:]:[[:space:](]*\\(" um--name "\\)") 1 font-lock-type-face)
    (,(concat "\\.\\(" um--name "\\)") 1 font-lock-property-face nil t))
  "The colours of `um-mode'.")

(unless (facep 'font-lock-property-face)
  (defface font-lock-property-face '((t :inherit font-lock-variable-name-face))
    "The face of fields, where Emacs has none of this name."
    :group 'um))

(defvar font-lock-property-face)
(setq font-lock-property-face 'font-lock-property-face)

(defun um--code-before ()
  "The last line before this one that isn't blank: its indentation and its code."
  (save-excursion
    (beginning-of-line)
    (skip-chars-backward " \t\n\r")
    (if (bobp)
        (cons 0 "")
      (let ((line (buffer-substring-no-properties (line-beginning-position) (line-end-position))))
        (cons (current-indentation) (string-trim-right (replace-regexp-in-string "//.*" "" line)))))))

(defconst um--before-expression "\\(?:=\\|->\\|[({[;]\\|\\_<\\(?:in\\|if\\|then\\|else\\|match\\)\\)\\'"
  "What a local `let' can follow; any other is a declaration.")

(defun um-indentation ()
  "The column at which this line begins."
  (let* ((before (um--code-before)) (indentation (car before)) (code (cdr before)))
    (save-excursion
      (back-to-indentation)
      (cond ((or (string-empty-p code) (looking-at-p "type\\_>\\|\\[<")) 0)
            ((and (looking-at-p "let\\_>") (not (string-match-p um--before-expression code))) 0)
            ((and (looking-at-p "|") (string-match-p "\\_<with\\'" code)) indentation)
            ((looking-at-p "[])}]") (max 0 (- indentation um-indent-offset)))
            ((string-match-p "\\(?:=\\|->\\|\\_<then\\|\\_<else\\|[({[]\\)\\'" code)
             (+ indentation um-indent-offset))
            (t indentation)))))

(defun um-indent-line ()
  "Indent this line."
  (interactive)
  (let ((column (um-indentation)))
    (if (<= (current-column) (current-indentation))
        (indent-line-to column)
      (save-excursion (indent-line-to column)))))

(defvar um-imenu-generic-expression
  `(("Measures" ,(concat "^" um--attribute "[[:space:]]*type[[:space:]]+\\(" um--name "\\)") 1)
    ("Records" ,(concat "^type[[:space:]]+\\(" um--name "\\)") 1)
    (nil ,(concat "^let[[:space:]]+\\(?:rec[[:space:]]+\\)?\\(" um--name "\\)") 1))
  "The declarations that `imenu' lists.")

;;;###autoload
(define-derived-mode um-mode prog-mode "um"
  "Major mode for programs with units of measure."
  (setq-local comment-start "// "
              comment-end ""
              comment-start-skip "//+[[:space:]]*"
              indent-tabs-mode nil
              indent-line-function #'um-indent-line
              font-lock-multiline t
              font-lock-defaults '(um-font-lock-keywords)
              imenu-generic-expression um-imenu-generic-expression))

;;;###autoload
(add-to-list 'auto-mode-alist '("\\.um\\'" . um-mode))

(defvar eglot-server-programs)

(with-eval-after-load 'eglot
  (add-to-list 'eglot-server-programs `(um-mode . ,(lambda (&rest _) um-command))))

(provide 'um-mode)
;;; um-mode.el ends here
