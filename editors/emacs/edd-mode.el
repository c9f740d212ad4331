;;; edd-mode.el --- EDDL device descriptions  -*- lexical-binding: t; -*-

;; Made by tools/editors from the tables of the sources.

;;; Commentary:

;; Colours, comments and indentation for files that end with .edd, and the language server `edd lsp' for eglot.

;;; Code:

(require 'edd-indent)
(require 'subr-x)
(require 'term)

(defvar edd-mode-font-lock-keywords
  `(("^[ \t]*#.*$" . 'font-lock-preprocessor-face)
    (,(regexp-opt '("MANUFACTURER" "DEVICE_TYPE" "DEVICE_REVISION" "DD_REVISION" "VARIABLE" "COMMAND" "MENU" "COLLECTION" "METHOD" "ARRAY" "OF") 'symbols) . 'font-lock-type-face)
    (,(regexp-opt '("LABEL" "HELP" "CLASS" "HANDLING" "CONSTANT_UNIT" "VALIDITY" "TYPE" "NUMBER" "OPERATION" "TRANSACTION" "RESPONSE_CODES" "REQUEST" "REPLY" "ITEMS" "MEMBERS" "DEFINITION" "ELEMENTS" "DEFAULT_VALUE" "MIN_VALUE" "MAX_VALUE" "DISPLAY_FORMAT" "EDIT_FORMAT") 'symbols) . 'font-lock-keyword-face)
    (,(regexp-opt '("IF" "ELSE" "SELECT" "CASE" "DEFAULT") 'symbols) . 'font-lock-keyword-face)
    (,(regexp-opt '("if" "else" "while" "do" "for" "switch" "case" "default" "break" "continue" "return" "goto") 'symbols) . 'font-lock-keyword-face)
    (,(regexp-opt '("int" "long" "char" "short" "unsigned" "signed" "float" "double") 'symbols) . 'font-lock-type-face)
    (,(regexp-opt '("INTEGER" "UNSIGNED_INTEGER" "ENUMERATED" "BIT_ENUMERATED") 'symbols) . 'font-lock-type-face)
    (,(regexp-opt '("READ" "WRITE" "TRUE" "FALSE" "SUCCESS" "MISC_WARNING" "DATA_ENTRY_WARNING" "DATA_ENTRY_ERROR" "MODE_ERROR" "PROCESS_ERROR" "MISC_ERROR" "INFO" "INDEX" "DISPLAY_VALUE" "READ_ONLY" "HIDDEN" "REVIEW") 'symbols) . 'font-lock-constant-face)
    (,(regexp-opt '("PUT_MESSAGE" "ACKNOWLEDGE" "DELAY" "GET_DEV_VAR_VALUE" "SELECT_FROM_LIST" "send_command" "send_command_trans" "save_values" "ivar_value" "lvar_value" "iassign" "lassign" "abort" "process_abort" "add_abort_method") 'symbols) . 'font-lock-builtin-face)
    ("\\_<\\(?:0[xX][0-9a-fA-F]+\\|[0-9]+\\)\\_>" . 'font-lock-constant-face)))

(defvar edd-mode-syntax-table
  (let ((table (make-syntax-table)))
    (modify-syntax-entry ?_ "_" table)
    (modify-syntax-entry ?/ ". 124b" table)
    (modify-syntax-entry ?* ". 23" table)
    (modify-syntax-entry ?\n "> b" table)
    (modify-syntax-entry ?\" "\"" table)
    (modify-syntax-entry ?\\ "\\" table)
    table))

(defvar edd-mode-program "edd" "The program that checks, lays out and runs descriptions.")

(defun edd-mode-format-buffer ()
  "Lay the text out as `edd fmt' does; a text that it refuses stays as it is."
  (interactive)
  (let ((text (current-buffer)) (made (generate-new-buffer " *edd fmt*")))
    (unwind-protect
        (if (zerop (let ((coding-system-for-read 'utf-8) (coding-system-for-write 'utf-8))
                     (call-process-region (point-min) (point-max) edd-mode-program nil (list made nil) nil "fmt" "-")))
            (with-current-buffer text (replace-buffer-contents made))
          (message "edd fmt refuses the text; edd check says why"))
      (kill-buffer made))))

(defun edd-mode-run (&rest words)
  "Run the program with WORDS in a terminal of Emacs."
  (let ((name (concat "edd " (car words))))
    (pop-to-buffer (apply #'make-term name edd-mode-program nil words))
    (term-char-mode)))

(defun edd-mode-device-words ()
  "The words that name the simulated device, whose description lies beside this one."
  (let ((device (concat (string-remove-suffix ".device" (file-name-sans-extension buffer-file-name)) ".device.edd")))
    (when (and (not (equal device buffer-file-name)) (file-exists-p device))
      (list "--device" device))))

(defun edd-mode-open-instrument ()
  "Open the instrument that the description is, as a communicator does."
  (interactive)
  (apply #'edd-mode-run "open" buffer-file-name (edd-mode-device-words)))

(defun edd-mode-run-method (method)
  "Run a METHOD of the description."
  (interactive (list (read-string "Method: " (thing-at-point 'symbol t))))
  (apply #'edd-mode-run "try" buffer-file-name method (edd-mode-device-words)))

(defvar edd-mode-map
  (let ((map (make-sparse-keymap)))
    (define-key map (kbd "C-c C-f") #'edd-mode-format-buffer)
    (define-key map (kbd "C-c C-o") #'edd-mode-open-instrument)
    (define-key map (kbd "C-c C-c") #'edd-mode-run-method)
    map))

;;;###autoload
(define-derived-mode edd-mode prog-mode "EDDL"
  "Major mode for device descriptions in EDDL."
  (setq-local font-lock-defaults '(edd-mode-font-lock-keywords))
  (setq-local comment-start "// ")
  (setq-local comment-end "")
  (setq-local comment-start-skip "\\(?://+\\|/\\*+\\)[ \t]*")
  (setq-local indent-tabs-mode nil)
  (setq-local indent-line-function #'edd-indent-line)
  (setq-local indent-region-function #'edd-indent-region))

;;;###autoload
(add-to-list 'auto-mode-alist '("\\.edd\\'" . edd-mode))

(define-derived-mode edd-test-mode prog-mode "EDDL-Test"
  "Major mode for the tests and scripts of device descriptions."
  (setq-local comment-start "# ")
  (setq-local comment-end ""))

(defun edd-mode-is-test-or-script ()
  "Whether the file has tests of a description or is a script of one; others have files of these names as well."
  (pcase (and buffer-file-name (file-name-extension buffer-file-name))
    ("test" (save-excursion (goto-char (point-min)) (re-search-forward "^[ ]*\\(?:source\\|image\\) " nil t)))
    ("script" (let ((name (file-name-sans-extension buffer-file-name)))
                (or (file-exists-p (concat name ".edd"))
                    (file-exists-p (concat (file-name-sans-extension name) ".edd")))))))

;;;###autoload
(add-to-list 'magic-mode-alist '(edd-mode-is-test-or-script . edd-test-mode))

(defvar eglot-server-programs)
(with-eval-after-load 'eglot
  (add-to-list 'eglot-server-programs
               (cons '(edd-mode edd-test-mode) (lambda (&rest _) (list edd-mode-program "lsp")))))

(provide 'edd-mode)
;;; edd-mode.el ends here
