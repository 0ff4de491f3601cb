;;; rls-mailbox.el --- What a replica does in the shared folder  -*- lexical-binding: t -*-

;;; Code:

(require 'rls-files)
(require 'rls-limits)
(require 'rls-session)
(require 'rls-changes)
(require 'rls-tokens)
(require 'rls-circle)
(declare-function rls--stored "rls")
(defvar rls-program)
(defvar rls--folder)

(defcustom rls-name "" "What others see beside the cursor." :type 'string :group 'rls)
(defconst rls--most-input 67108864 "Bytes that a session reads before it stores.")
(defconst rls--most-cursor 65536 "Bytes of a file with a cursor.")
(defvar-local rls--shared nil)
(defvar-local rls--head nil "The head of a message of this replica.")
(defvar-local rls--group nil)
(defvar-local rls--members nil)
(defvar-local rls--me nil)
(defvar-local rls--seen nil "What was at each path in the shared folder.")
(defvar-local rls--taken nil "The last message from each member.")
(defvar-local rls--sent nil "The last message to each member that was written.")
(defvar-local rls--last nil "The last message to each member, written or not.")
(defvar-local rls--marks nil "What the file of each written message was when it was looked at last.")
(defvar-local rls--looked 0 "How often the written messages were looked at.")
(defvar-local rls--away nil "Whether the shared folder isn't there.")
(defvar-local rls--problems nil "What was wrong with the last message from, or to, each member.")
(defvar-local rls--shown nil "Where point was when others were told.")
(defvar-local rls--place nil "What others were told of point.")
(defvar-local rls--places nil "The place and the name that each other member told of its cursor.")
(defvar-local rls--lookup-due nil "Whether places of others have to be looked up again, since messages came.")
(defvar-local rls--overlays nil "The overlay that shows each other member's cursor.")
(defvar-local rls--labels nil "The overlay that shows the name beside each other member's cursor.")
(defvar-local rls--ahead nil "What is said of each member whose message counts more edits than were made here.")

;;;; Messages.  One file for each sender and receiver: a message has all that its receiver isn't known to have, so the latest is enough.

(defun rls--path (from to) (expand-file-name (format "%d-%d-%d.rlsm" rls--group from to) rls--shared))

(defun rls--cursor-path (from) (expand-file-name (format "%d-%d.cursor" rls--group from) rls--shared))

(defun rls--new-p (path)
  "Whether there is something else at PATH than when this was asked last."
  (let ((mark (rls--mark path)))
    (unless (equal mark (alist-get path rls--seen nil nil #'equal))
      (setf (alist-get path rls--seen nil nil #'equal) mark)
      t)))

(defun rls--message (to)
  (let ((reply (rls--ask-all (format "s %d" to))))
    (rls--number (car reply) "message")
    (cadr reply)))

(defun rls--told (to)
  "What the last message that was taken of TO says that it has.
A space stands before each count.  With the fourth version of the session that
is left out of what is sent to it.  Empty if there is none."
  (let ((message (alist-get to rls--taken)))
    (if (and message (>= rls--version 4) (>= (length message) (+ 21 (* 4 rls--members))) (equal (substring message 0 4) "RLSM"))
        (mapconcat (lambda (k) (format " %d" (rls--u32 message (+ 21 (* 4 k))))) (number-sequence 0 (1- rls--members)) "")
      "")))

(defun rls--fault-of (message from)
  "Why the head of MESSAGE isn't what the name of its file, that of FROM, says.
Nil if it is, or if this is no head at all, which the session says then."
  (when (and (>= (length message) (+ 21 (* 4 rls--members))) (equal (substring message 0 4) "RLSM"))
    (let ((sender (rls--u32 message 17)))
      (cond ((not (equal (substring message 5 17) (substring rls--head 5 17))) "it is of another text")
            ((/= sender from) (format "its head says member %d" sender))))))

(defun rls--doubted-p (from)
  "Whether the launcher was told to doubt FROM.
That is said by RLS_FORCE=1 (docs/USE.md, \"Rules\")."
  (member (format "%d-%d-%d %d" rls--group rls--members rls--me from)
          (split-string (or (ignore-errors (rls--read (expand-file-name "replica.doubted" rls--folder) rls--most-cursor)) "") "\n")))

(defun rls--ahead-p (message from)
  "Whether MESSAGE of FROM counts more operations of this member than were made.
Then the files in the replica's folder are old, and whatever is made there has
numbers that are taken; or the message is forged.  It isn't taken, and until its
file is gone, or another one, nothing is sent: sending would part the texts for
ever if the files are old.  The messages of others are taken."
  (let ((at (+ 21 (* 4 rls--me))))
    (when (and (>= (length message) (+ at 4)) (> (rls--u32 message at) (rls--u32 (rls--message rls--me) at)))
      (rls--note (format "of %d" from) (format "it counts more edits of member %d than this replica has made" rls--me))
      (unless (rls--doubted-p from)
        (let ((line (format "%d-%d-%d.rlsm counts more edits of member %d than were made here" rls--group from rls--me rls--me)))
          (setf (alist-get from rls--ahead) (concat "NOT sent: " line))
          (message "rls: %s. Nothing is sent: the files in %s are old, or the number is used twice (docs/USE.md, \"A replica is lost\"); or somebody forged it: then delete it"
                   line rls--folder)))
      t)))

(defun rls--pass (from)
  "The message of FROM is no longer in the way of sending."
  (when (alist-get from rls--ahead)
    (setf (alist-get from rls--ahead nil t) nil)
    (setq rls--stopped t)))

(defun rls--note (message problem)
  "Remembers the PROBLEM with a MESSAGE, such as \"of 2\"; nil if there is none."
  (setf (alist-get message rls--problems nil t #'equal) problem))

(defun rls--take-from (from)
  "Takes what came from a member.
Answers a list of what it changed, or t, if there was anything.  What can't be
read as a message is told, and stops no other member's."
  (let* ((name (format "of %d" from)) (path (rls--path from rls--me))
         (message (and (/= from rls--me) (rls--new-p path)
                       (condition-case fault
                           (or (rls--read path rls--most-input) (ignore (rls--note name nil) (rls--pass from)))
                         (error (rls--note name (error-message-string fault)) nil))))
         (fault (and message (rls--fault-of message from))))
    (when fault (rls--note name fault))
    (when (and message (equal message (alist-get from rls--taken)))
      (rls--note name nil)
      (rls--pass from))
    (unless (or (null message) fault (equal message (alist-get from rls--taken)) (rls--ahead-p message from))
      (rls--pass from)
      (let* ((request (format "m %d" (length message)))
             (told (if (rls--make-room (+ (length request) 1 (length message))) (rls--ask-all request message) (rls--take-by-command message)))
             (reply (car told))
             (is-refused (string-prefix-p "no " reply)))
        (rls--note name (unless (and (not is-refused) (string-match "held 0 refused 0" reply)) reply))
        ;; What was refused once is refused again.
        (setf (alist-get from rls--taken) message)
        (unless is-refused
          (setq rls--changes (+ rls--changes (rls--number reply "applied")))
          (unless (string-prefix-p "applied 0 released 0 " reply) (setq rls--last-writer (cons from (format-time-string "%H:%M"))))
          (or (nth 2 told) t))))))

(defun rls--take-all ()
  "Takes what came.
Answers whether there was anything, and the list of what it changed."
  (let (taken changes)
    (when (rls--may-write-p)
      (dotimes (from rls--members)
        (let ((told (rls--take-from from)))
          (when told
            (setq taken t)
            (when (consp told) (setq changes (append changes told)))))))
    (cons taken changes)))

(defun rls--make-room (size)
  "Has the session read SIZE bytes more before it stores.
Answers whether it can."
  (when (and (>= rls--version 2) (> (+ rls--given size) rls--most-input)) (rls--stored (rls--ask "w")))
  (<= (+ rls--given size) rls--most-input))

(defun rls--take-by-command (message)
  "Takes a MESSAGE that a session can't read before it stores.
The answer is that of `rls--ask-all'."
  (let ((file (make-temp-file "rls")) (program rls-program) (folder rls--folder) (coding-system-for-write 'binary) said)
    (rls--stored (rls--ask "q"))
    (rls--end-process)
    (write-region message nil file nil 'silent)
    (with-temp-buffer
      (let ((default-directory folder)) (call-process program file t nil "take"))
      (goto-char (point-min))
      (setq said (buffer-substring (point) (line-end-position))))
    (delete-file file)
    (rls--begin program folder)
    (setq rls--behind t)
    (list (if (string-prefix-p "applied " said) said (concat "no " said)))))

(defun rls--enough-p (to message)
  "Whether nothing ever came from number TO and it has more than half of MESSAGE.
Each of them has the whole history.  Whoever begins with the number takes the
one that is there and answers, and gets the rest."
  (let ((there (rls--size (rls--path rls--me to))))
    (and there (zerop (rls--u32 message (+ 21 (* 4 to)))) (> (* 2 there) (length message))
         (not (rls--size (rls--path to rls--me))))))

(defun rls--shared-p ()
  "Whether the shared folder is there: a drive may go and come back."
  (setq rls--away (not (file-directory-p rls--shared)))
  (not rls--away))

(defun rls--written-p (to message)
  "Whether MESSAGE to a member is there already.
If what is there has this member's number and more of its operations than were
made here, nothing is written."
  (let* ((path (rls--path rls--me to)) (there (or (ignore-errors (rls--read path rls--most-input)) "")) (at (+ 21 (* 4 rls--me))))
    (cond ((equal there message)
           (rls--note (format "to %d" to) nil)
           (setf (alist-get to rls--sent) message
                 (alist-get to rls--marks) (rls--mark path)))
          ((and (>= (length there) (+ at 4)) (equal (substring there 5 21) (substring rls--head 5 21))
                (> (rls--u32 there at) (rls--u32 message at)))
           (rls--stop path "it has more operations of this number than this replica has made")
           nil))))

(defun rls--write-message (to message)
  "Writes MESSAGE to a member."
  (rls--write (rls--path rls--me to) message)
  (rls--note (format "to %d" to) nil)
  (setf (alist-get to rls--sent) message
        (alist-get to rls--marks) (rls--mark (rls--path rls--me to))))

(defun rls--write-messages (messages)
  "Writes MESSAGES to members, as far as they are new.
It says before that this replica writes."
  (let ((due (seq-remove (lambda (x) (or (equal (cdr x) (alist-get (car x) rls--sent)) (rls--enough-p (car x) (cdr x)))) messages)) is-shown)
    (rls--tell-once 'file (rls--told-of-file rls--folder))
    (dolist (x due)
      (setf (alist-get (car x) rls--last) (cdr x))
      (rls--tell-once (car x) (rls--told-of-member (car x) (length (cdr x)) (rls--path (car x) rls--me))))
    (when (and due (not rls--ahead) (rls--shared-p) (rls--may-write-p))
      (setq due (seq-remove (lambda (x) (rls--written-p (car x) (cdr x))) due))
      (dolist (x (unless rls--twice due))
        (condition-case fault
            (progn (unless is-shown (rls--show-token))
                   (setq is-shown t)
                   (rls--write-message (car x) (cdr x)))
          ;; The name of the file is one that nobody knows.
          (file-error (rls--note (format "to %d" (car x))
                                 (if (file-writable-p rls--shared) (or (nth 2 fault) (error-message-string fault))
                                   (format "no permission to write there (%s)"
                                           (file-attribute-modes (file-attributes rls--shared)))))))))))

(defun rls--there-p (to message)
  "Whether the MESSAGE to a member is there as it was written.
The file is read only if it is another one than when this was asked last."
  (let* ((path (rls--path rls--me to)) (mark (rls--mark path)))
    (and mark (equal message (alist-get to rls--sent))
         (or (equal mark (alist-get to rls--marks))
             (progn (setf (alist-get to rls--marks) mark)
                    (equal message (ignore-errors (rls--read path rls--most-input))))))))

(defun rls--write-again ()
  "Writes again what could not be written, and what isn't there any more.
The folder may have an older state.  It is looked at when the folder is back,
or this replica may write again, and each tenth time that this is called."
  (let ((was-stopped (or rls--away rls--stopped)))
    (setq rls--looked (1+ rls--looked))
    (when (and (rls--shared-p) (or was-stopped (zerop (% rls--looked 10))) (rls--may-write-p))
      (setq rls--stopped nil)
      (let ((lost (seq-remove (lambda (x) (rls--there-p (car x) (cdr x))) (copy-sequence rls--last))))
        (dolist (x lost) (setf (alist-get (car x) rls--sent nil t) nil))
        (rls--write-messages lost))
      (when was-stopped (setq rls--shown nil rls--place nil)))))

;;;; Cursors

(defun rls--show-point ()
  "Tells others where point is, if it has moved."
  (let ((at (1- (if (get-buffer-window) (window-point (get-buffer-window)) (point)))))
    (unless (equal at rls--shown)
      (setq rls--shown at)
      (rls--send-request (format "a %d" at) nil #'rls--tell-point))))

(defun rls--tell-point (reply &rest _)
  "Writes for others where point is, as REPLY says it."
  (let* ((place (and (string-match "\\`anchor \\([^ ]+\\)\\'" reply) (match-string 1 reply)))
         (name (if (and rls--where (equal rls-name "")) (nth 4 rls--where) rls-name))
         (line (string-trim-right (concat place " " (replace-regexp-in-string "[[:cntrl:]]" "" name)))))
    (when (and place (not (equal line rls--place)) (rls--may-write-p))
      (setq rls--place line)
      (ignore-errors (rls--write (rls--cursor-path rls--me) (concat (encode-coding-string line 'utf-8-unix) "\n"))))))

(defun rls--told-place (path)
  "The place that PATH tells of a cursor, and its name or nil; nil if none."
  (let ((data (or (ignore-errors (rls--read path rls--most-cursor)) "")))
    (when (string-match "\\`\\([!-~]+\\)\\(?: \\(.*\\)\\)?$" data)
      (list (match-string 1 data)
            (and (match-string 2 data) (decode-coding-string (match-string 2 data) 'utf-8-unix))))))

(defun rls--show-others ()
  "Shows where the cursors of others are.
What can't be read as a cursor isn't shown.  They are looked up again when
messages came: then the session may know of places that it didn't know before."
  (dotimes (from rls--members)
    (let* ((path (rls--cursor-path from)) (is-new (and (/= from rls--me) (rls--new-p path))))
      (when is-new (setf (alist-get from rls--places) (rls--told-place path)))
      (let ((told (alist-get from rls--places)))
        (cond ((and is-new (not told)) (rls--mark-other from nil nil))
              ((and told (or is-new rls--lookup-due))
               (let ((edition rls--edition))
                 (rls--send-request (concat "l " (car told)) nil
                                    (lambda (reply &rest _)
                                      ;; If the text is another one by now, it is asked for again.
                                      (if (or rls--parts (/= edition rls--edition)) (setq rls--lookup-due t)
                                        (rls--mark-other from (and (string-match "\\`cursor \\([0-9]+\\)\\'" reply)
                                                                   (1+ (string-to-number (match-string 1 reply))))
                                                         (or (cadr told) (rls--name-of from))))))))))))
  (setq rls--lookup-due nil))

(defun rls--mark-other (from at name)
  "Shows the cursor of member FROM by an overlay AT a place; none if that is nil.
NAME is shown behind the line."
  (dolist (old (list (alist-get from rls--overlays) (alist-get from rls--labels)))
    (when old (delete-overlay old)))
  (when at
    (save-restriction
      (widen)
      (let* ((is-end (or (>= at (point-max)) (eq (char-after at) ?\n))) (overlay (make-overlay at (if is-end at (1+ at)))))
        (if is-end (overlay-put overlay 'after-string (propertize " " 'face 'highlight)) (overlay-put overlay 'face 'highlight))
        (setf (alist-get from rls--overlays) overlay)
        (let ((shown (truncate-string-to-width (replace-regexp-in-string "[[:cntrl:]]" "" (or name "")) 40))
              (label (save-excursion (goto-char at) (make-overlay (line-end-position) (line-end-position) nil t t))))
          (overlay-put overlay 'help-echo (if (equal shown "") (format "member %d" from) shown))
          (unless (equal shown "") (overlay-put label 'after-string (propertize (concat "  " shown) 'face 'shadow)))
          (setf (alist-get from rls--labels) label))))))

(provide 'rls-mailbox)
;;; rls-mailbox.el ends here
