;;; edd-indent.el --- Indentation of EDDL device descriptions  -*- lexical-binding: t; -*-

;;; Commentary:

;; How far the lines of descriptions are to the right: as docs/LAYOUT.md says and `edd fmt' writes them.
;; Lines are read from the beginning of their item on, token by token.

;;; Code:

(require 'cl-lib)

(defconst edd-indent-step 4 "Blanks for each open brace.")

(defconst edd-indent-string "\"\\(?:\\\\.\\|[^\"\\]\\)*\"" "A string that ends on its line.")

(defconst edd-indent-token
  "\"\\(?:\\\\.\\|[^\"\\]\\)*\"?\\|//.*\\|/\\*\\|[0-9A-Za-z_]+\\|[^ \t\r]"
  "A string, which may go on on the next line; a comment; a word or number; a sign.")

(defconst edd-indent-item
  "[ \t]*\\(?:VARIABLE\\|COMMAND\\|MENU\\|COLLECTION\\|METHOD\\|ARRAY\\)\\_>"
  "The beginning of an item.")

(cl-defstruct edd-frame
  "An open brace: the indentation of what it belongs to, and of what is in it.
Of a parenthesis INNER is the column behind it."
  sign (outer 0) (inner 0) is-code is-switch has-label in-label heads)

(cl-defstruct edd-head
  "A word of a statement, which waits for its condition, its body, or what may come behind it."
  word indent state)

(cl-defstruct edd-lines
  "What is known before a line.
INSIDE is the sign of a comment or string that goes on, TEXT the column of the first of several texts."
  (frames (list (make-edd-frame))) (last "") (fresh t) inside (text 0))

(defun edd-indent--frame (state)
  (car (edd-lines-frames state)))

(defun edd-indent--in-parentheses (frame)
  (member (edd-frame-sign frame) '("(" "[")))

(defun edd-indent--is-string (token)
  (string-prefix-p "\"" token))

(defun edd-indent--is-label (token)
  (member token '("case" "default")))

(defun edd-indent--of-statement (frame token)
  "How far a statement of FRAME is to the right that begins with TOKEN."
  (let (has-ended found)
    ;; Behind an `if' without `else' what it is in ends as well.
    (cl-loop for head in (edd-frame-heads frame) until found do
             (let ((state (edd-head-state head)))
               (when (and has-ended (eq state 'body))
                 (setq state (if (equal (edd-head-word head) "do") 'again 'after)))
               (cond
                ((eq state 'body)
                 (setq found (+ (edd-head-indent head) (if (equal token "{") 0 edd-indent-step))))
                ((or (and (eq state 'after) (equal (edd-head-word head) "if") (equal token "else"))
                     (and (eq state 'again) (equal token "while")))
                 (setq found (edd-head-indent head))))
               (setq has-ended t)))
    (or found
        (+ (edd-frame-inner frame)
           (if (and (edd-frame-has-label frame) (not (edd-indent--is-label token))) edd-indent-step 0)))))

(defun edd-indent--of-token (state token)
  "How far a line behind STATE is to the right that begins with TOKEN."
  (let ((frame (edd-indent--frame state)))
    (cond
     ((edd-indent--in-parentheses frame) (edd-frame-inner frame))
     ((equal token "}") (edd-frame-outer frame))
     ((and (edd-indent--is-string token) (edd-indent--is-string (edd-lines-last state)))
      (edd-lines-text state))
     (t (+ (edd-indent--of-statement frame token)
           (if (and (edd-frame-is-code frame) (not (edd-lines-fresh state)) (not (equal token "{")))
               edd-indent-step
             0))))))

(defun edd-indent--end-statement (frame)
  "A statement of FRAME ends, and with it those that it is the last part of."
  (let (stays)
    (while (and (edd-frame-heads frame) (not stays))
      (let ((head (car (edd-frame-heads frame))))
        (setq stays (and (eq (edd-head-state head) 'body)
                         (cdr (assoc (edd-head-word head) '(("if" . after) ("do" . again))))))
        (if stays
            (setf (edd-head-state head) stays)
          (pop (edd-frame-heads frame)))))))

(defun edd-indent--end-ifs (frame token)
  "Ends the statements of FRAME that wait for an `else', unless TOKEN is one."
  (while (and (edd-frame-heads frame)
              (eq (edd-head-state (car (edd-frame-heads frame))) 'after)
              (not (equal token "else")))
    (pop (edd-frame-heads frame))
    (edd-indent--end-statement frame)))

(defun edd-indent--begin-statement (state frame token)
  (edd-indent--end-ifs frame token)
  (let* ((indent (edd-indent--of-statement frame token))
         (head (car (edd-frame-heads frame)))
         (waits (and head (edd-head-state head)))
         (is-do (equal token "do")))
    (cond
     ((and (equal token "else") (eq waits 'after))
      (setf (edd-head-word head) "else" (edd-head-state head) 'body))
     (t
      (setf (edd-lines-fresh state) nil)
      (cond
       ((and (equal token "while") (eq waits 'again))
        (setf (edd-head-word head) "while" (edd-head-state head) 'end))
       ((member token '("if" "while" "for" "switch" "do"))
        (when (and (equal token "if") head (equal (edd-head-word head) "else")
                   (equal (edd-lines-last state) "else"))
          (setq indent (edd-head-indent head))
          (pop (edd-frame-heads frame)))
        (push (make-edd-head :word token :indent indent :state (if is-do 'body 'condition))
              (edd-frame-heads frame))
        (setf (edd-lines-fresh state) is-do))
       ((edd-indent--is-label token)
        (setf (edd-frame-has-label frame) t (edd-frame-in-label frame) t)))))))

(defun edd-indent--open (state frame token column)
  (if (not (equal token "{"))
      (push (make-edd-frame :sign token :inner column) (edd-lines-frames state))
    (let* ((head (car (edd-frame-heads frame)))
           (is-body (and head (eq (edd-head-state head) 'body)))
           (outer (cond (is-body (edd-head-indent head))
                        ((edd-frame-is-code frame) (edd-indent--of-statement frame token))
                        (t (edd-frame-inner frame)))))
      (push (make-edd-frame :sign token :outer outer :inner (+ outer edd-indent-step)
                            :is-code (or (edd-frame-is-code frame)
                                         (equal (edd-lines-last state) "DEFINITION"))
                            :is-switch (and is-body (equal (edd-head-word head) "switch")))
            (edd-lines-frames state))
      (setf (edd-lines-fresh state) t))))

(defun edd-indent--close (state token)
  (when (cdr (edd-lines-frames state))
    (pop (edd-lines-frames state)))
  (let* ((frame (edd-indent--frame state))
         (head (car (edd-frame-heads frame))))
    (cond
     ((equal token "}")
      (edd-indent--end-statement frame)
      (setf (edd-lines-fresh state) t))
     ((and (equal token ")") head (eq (edd-head-state head) 'condition))
      (setf (edd-head-state head) 'body (edd-lines-fresh state) t)))))

(defun edd-indent--take (state token column next)
  "Takes a TOKEN that is at a COLUMN of its line, before the one at the column NEXT."
  (let* ((frame (edd-indent--frame state))
         (is-brace (not (edd-indent--in-parentheses frame))))
    (when (and (edd-indent--is-string token) (not (edd-indent--is-string (edd-lines-last state))))
      (setf (edd-lines-text state) column))
    (when (and is-brace (edd-frame-is-code frame) (edd-lines-fresh state))
      (cond
       ((equal token "{") (edd-indent--end-ifs frame token))
       ((not (member token '("}" ";"))) (edd-indent--begin-statement state frame token))))
    (cond
     ((member token '("{" "(" "[")) (edd-indent--open state frame token next))
     ((member token '("}" ")" "]")) (edd-indent--close state token))
     ((and (equal token ";") is-brace)
      (edd-indent--end-statement frame)
      (setf (edd-lines-fresh state) t))
     ((and (equal token ":") (edd-frame-in-label frame))
      (setf (edd-frame-in-label frame) nil (edd-lines-fresh state) t)))
    (setf (edd-lines-last state) token)))

(defun edd-indent--is-mark (line)
  (string-match-p "\\`[ \t]*#" line))

(defun edd-indent--tokens (state line)
  "The tokens of LINE, each with its column, without comments.
What goes on behind the line is noted in STATE."
  (let ((at 0) (case-fold-search nil) tokens)
    (while (< at (length line))
      (let ((inside (edd-lines-inside state)))
        (cond
         (inside
          (if (string-match (if (equal inside "/*") "\\*/" "\\(?:\\\\.\\|[^\"\\]\\)*?\"") line at)
              (setf (edd-lines-inside state) nil at (match-end 0))
            (setq at (length line))))
         ((not (string-match edd-indent-token line at)) (setq at (length line)))
         (t
          (let ((token (match-string 0 line)) (start (match-beginning 0)))
            (setq at (match-end 0))
            (cond
             ((string-prefix-p "//" token))
             ((equal token "/*") (setf (edd-lines-inside state) token))
             (t
              (push (cons token start) tokens)
              (when (and (edd-indent--is-string token)
                         (not (string-match-p (concat "\\`" edd-indent-string "\\'") token)))
                (setf (edd-lines-inside state) "\"")))))))))
    (nreverse tokens)))

(defun edd-indent--take-line (state line)
  (unless (and (not (edd-lines-inside state)) (edd-indent--is-mark line))
    (let ((tokens (edd-indent--tokens state line)))
      (while tokens
        (let ((column (cdar tokens)))
          (edd-indent--take state (caar tokens) column
                            (if (cdr tokens) (cdadr tokens) (1+ column))))
        (pop tokens)))))

(defun edd-indent--line ()
  (buffer-substring-no-properties (line-beginning-position) (line-end-position)))

(defun edd-indent--state ()
  "What is known before this line."
  (save-excursion
    (let ((state (make-edd-lines)) (case-fold-search nil)
          (here (line-beginning-position)) begun)
      (goto-char here)
      (while (and (not begun) (zerop (forward-line -1)))
        (setq begun (and (looking-at edd-indent-item) (not (nth 4 (syntax-ppss))))))
      (while (< (point) here)
        (edd-indent--take-line state (edd-indent--line))
        (forward-line 1))
      state)))

(defun edd-indent--first-token ()
  "The first token of this line, or of the next one that is no comment, and whether it is on this line."
  (save-excursion
    (beginning-of-line)
    (let ((here (point)) (state (make-edd-lines)) found)
      (while (and (not found) (not (eobp)))
        (let* ((line (edd-indent--line))
               (tokens (unless (and (not (edd-lines-inside state)) (edd-indent--is-mark line))
                         (edd-indent--tokens state line))))
          (cond
           (tokens (setq found (cons (caar tokens) (= (point) here))))
           ((and (= (point) here) (string-match-p "\\`[ \t]*\\'" line)) (setq found (cons "" t)))
           (t (forward-line 1)))))
      (or found (cons "" nil)))))

(defun edd-indent--column (state)
  "How far this line is to the right, which comes behind STATE; nil where it stays as it is."
  (let ((frame (edd-indent--frame state)) (line (edd-indent--line)) (case-fold-search nil))
    (cond
     ((edd-lines-inside state) nil)
     ((edd-indent--is-mark line) 0)
     ((and (string-match-p (concat "\\`" edd-indent-item) line) (null (cdr (edd-lines-frames state)))) 0)
     (t
      (pcase-let ((`(,token . ,is-here) (edd-indent--first-token)))
        (cond
         ((or is-here (not (equal token "}"))) (edd-indent--of-token state token))
         ;; A comment before the closing brace is as far to the right as the lines in the braces.
         ((edd-indent--in-parentheses frame) (edd-frame-inner frame))
         (t (edd-indent--of-statement frame ""))))))))

(defun edd-indent-line ()
  "Indent the line as `edd fmt' does."
  (interactive)
  (let ((column (edd-indent--column (edd-indent--state))))
    (when column
      (save-excursion (indent-line-to column))
      (when (< (current-column) (current-indentation)) (back-to-indentation)))))

(defun edd-indent-region (start end)
  "Indent the lines between START and END as `edd fmt' does."
  (interactive "r")
  (save-excursion
    (let ((last (copy-marker end)))
      (goto-char start)
      (beginning-of-line)
      (let ((state (edd-indent--state)))
        (while (and (< (point) last) (not (eobp)))
          (let ((column (edd-indent--column state)))
            (cond
             ((null column))
             ((string-match-p "\\`[ \t]*\\'" (edd-indent--line))
              (delete-region (line-beginning-position) (line-end-position)))
             (t (indent-line-to column))))
          (when (let ((case-fold-search nil)) (string-match-p (concat "\\`" edd-indent-item) (edd-indent--line)))
            (unless (or (edd-lines-inside state) (cdr (edd-lines-frames state)))
              (setq state (make-edd-lines))))
          (edd-indent--take-line state (edd-indent--line))
          (forward-line 1)))
      (set-marker last nil))))

(provide 'edd-indent)
;;; edd-indent.el ends here
