;;; Asks a language server in Emacs with eglot what tools/lsp_clients wants to know, and writes the answers down. -*- lexical-binding: t -*-
(require 'eglot)
(require 'json)

(defvar edd-asked
  (with-temp-buffer
    (insert-file-contents (getenv "EDD_ASKED"))
    (json-parse-buffer :object-type 'plist)))
(defvar edd-answers nil)

(define-derived-mode edd-mode prog-mode "edd")
(add-to-list 'auto-mode-alist '("\\.edd\\'" . edd-mode))
(add-to-list 'eglot-server-programs
             (cons 'edd-mode (append (plist-get edd-asked :server) nil)))
(setq eglot-sync-connect 60
      eglot-connect-timeout 60
      eglot-autoshutdown nil
      eglot-autoreconnect nil
      eglot-send-changes-idle-time 0
      eglot-confirm-server-initiated-edits nil
      jsonrpc-default-request-timeout 60)

(defun edd-note (name value)
  (setq edd-answers (plist-put edd-answers name value)))

(defun edd-text ()
  (buffer-substring-no-properties (point-min) (point-max)))

(defun edd-wait (test)
  "Waits until TEST holds, and says whether it does."
  (let ((end (+ (float-time) 60)))
    (while (and (not (funcall test)) (< (float-time) end))
      (accept-process-output nil 0.05))
    (and (funcall test) t)))

(defun edd-go (name)
  "Goes to a place that is asked about."
  (let ((place (plist-get edd-asked name)))
    (goto-char (point-min))
    (forward-line (plist-get place :line))
    (goto-char (byte-to-position (+ (position-bytes (point)) (plist-get place :byte))))))

(defun edd-ask (method &rest more)
  (eglot--signal-textDocument/didChange)
  (jsonrpc-request (eglot-current-server) method
                   (append (eglot--TextDocumentPositionParams) more)))

(defun edd-shown ()
  "What is wrong, as flymake has it from the server."
  (mapcar (lambda (it)
            (list :line (1- (line-number-at-pos (flymake-diagnostic-beg it)))
                  :message (flymake-diagnostic-text it)))
          (flymake-diagnostics)))

(defun edd-run ()
  (find-file (plist-get edd-asked :file))
  (call-interactively #'eglot)
  (edd-wait (lambda () (flymake-start) (flymake-diagnostics)))
  (edd-note :diagnostics (vconcat (edd-shown)))
  (edd-go :mistake)
  (let* ((here (eglot--pos-to-lsp-position))
         (actions (edd-ask :textDocument/codeAction
                           :range (list :start here :end here)
                           :context (list :diagnostics []))))
    (eglot--apply-workspace-edit (plist-get (aref actions 0) :edit)))
  (eglot--signal-textDocument/didChange)
  (edd-note :is_mended (if (edd-wait (lambda () (flymake-start) (not (flymake-diagnostics)))) t :false))
  (edd-note :mended (edd-text))
  (edd-go :used)
  (edd-note :hover (plist-get (plist-get (edd-ask :textDocument/hover) :contents) :value))
  (edd-note :declared
            (plist-get (plist-get (plist-get (edd-ask :textDocument/definition) :range) :start) :line))
  (edd-go :begun)
  (edd-note :labels
            (vconcat (mapcar (lambda (it) (plist-get it :label))
                             (plist-get (edd-ask :textDocument/completion) :items))))
  (edd-go :used)
  (eglot-rename (plist-get edd-asked :name))
  (edd-note :renamed (edd-text))
  (eglot-format-buffer)
  (edd-note :formatted (edd-text))
  (edd-note :edits_left
            (length (edd-ask :textDocument/formatting :options (list :tabSize 4 :insertSpaces t))))
  (let* ((server (eglot-current-server))
         (process (jsonrpc--process server)))
    ;; `eglot-shutdown' kills the process before it can end by itself.
    (jsonrpc-request server :shutdown nil)
    (jsonrpc-notify server :exit nil)
    (edd-wait (lambda () (not (process-live-p process))))
    (edd-note :status (process-exit-status process)))
  (with-temp-file (getenv "EDD_ANSWERS")
    (insert (json-serialize edd-answers :false-object :false))))

(edd-run)
