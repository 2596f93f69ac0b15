;;; emacs.el --- Drives Emacs for test_lsp_emacs.py  -*- lexical-binding: t; -*-

;; UM_PLAN names a JSON file: {"files": [..], "server": [..], "lines": [..]}. The results go to UM_RESULTS.

;;; Code:

(require 'json)
(require 'um-mode)

(defconst test-patience 300
  "Seconds.  Nothing takes as long unless it hangs, also on a machine that has much else to do.")

(defun test-read (name)
  "The JSON in the file that the variable NAME of the environment names."
  (let ((json-array-type 'list))
    (json-read-file (getenv name))))

(defun test-faces ()
  "Each word of this buffer with its face, as a list of pairs."
  (font-lock-ensure)
  (let (found)
    (goto-char (point-min))
    (while (re-search-forward "'?[[:alnum:]_.]+\\|//.*" nil t)
      (push (list (match-string-no-properties 0)
                  (format "%s" (get-text-property (match-beginning 0) 'face)))
            found))
    (vconcat (nreverse found))))

(defun test-indented ()
  "The lines of this buffer after each is indented anew."
  (let ((text (buffer-string)))
    (goto-char (point-min))
    (while (not (eobp))
      (unless (looking-at-p "//")
        (delete-horizontal-space)
        (unless (eolp) (um-indent-line)))
      (forward-line 1))
    (list (cons 'before text) (cons 'after (buffer-string)))))

(defun test-wait (what test)
  "Wait until TEST gives something, for WHAT."
  (let ((end (+ (float-time) test-patience)) found)
    (while (not (or (setq found (funcall test)) (> (float-time) end)))
      (accept-process-output nil 0.05))
    (or found (error "It took too long: %s" what))))

(defun test-server (use)
  "What Eglot shows of this buffer, and of the place USE."
  (call-interactively #'eglot)
  (test-wait "the server" (lambda () (and (eglot-current-server) (eglot-managed-p))))
  (flymake-start)
  (let ((diagnostics
         (vconcat (mapcar (lambda (one)
                            (list (buffer-substring-no-properties (flymake-diagnostic-beg one)
                                                                  (flymake-diagnostic-end one))
                                  (flymake-diagnostic-text one)))
                          (progn (ignore-errors
                                   (test-wait "diagnostics" (lambda () (or (null use) (flymake-diagnostics)))))
                                 (flymake-diagnostics)))))
        hover)
    (when use
      (goto-char (point-min))
      (search-forward use)
      (goto-char (match-beginning 0))
      (setq hover (plist-get (plist-get (jsonrpc-request (eglot--current-server-or-lose) :textDocument/hover
                                                         (eglot--TextDocumentPositionParams)
                                                         :timeout test-patience)
                                        :contents)
                             :value)))
    (list (cons 'diagnostics diagnostics) (cons 'hover hover))))

(defun test-file (file)
  "The results of FILE."
  (find-file file)
  (prog1 (list (cons 'mode (symbol-name major-mode))
               (cons 'faces (test-faces))
               (cons 'comment comment-start)
               (cons 'indented (test-indented)))
    (set-buffer-modified-p nil)
    (kill-buffer)))

(let* ((plan (test-read "UM_PLAN"))
       (results (mapcar (lambda (file) (cons (intern file) (test-file file))) (cdr (assq 'files plan))))
       (server (cdr (assq 'server plan))))
  (when (and server (require 'eglot nil t))
    (setq um-command server
          eglot-sync-connect test-patience
          eglot-connect-timeout test-patience)
    (dolist (asked (cdr (assq 'asked plan)))
      (find-file (car asked))
      (push (cons (intern (concat "server:" (car asked))) (test-server (cadr asked))) results)
      (eglot-shutdown (eglot-current-server) nil test-patience)
      (kill-buffer)))
  (with-temp-file (getenv "UM_RESULTS")
    (insert (json-encode results))))

;;; emacs.el ends here
