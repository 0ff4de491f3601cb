;;; rls.el --- Edits a replica of rls in a buffer  -*- lexical-binding: t -*-

;; Package-Requires: ((emacs "28.1"))

;;; Commentary:

;; M-x rls-open FILE opens the shared text whose plain file this is (`rls share', `rls join'); when its buffer goes, the file is written.  M-x rls-open
;; SHARED opens a text of a shared folder, and M-x rls-open FOLDER SHARED the replica of FOLDER; messages go through the folder SHARED.
;; C-x C-s stores, takes what came and sends what is new; timers do so too.  With the second version of the session Emacs' keys of undo take
;; back own edits alone, whatever others did since; with the first one M-x rls-undo takes back the last own edit that isn't stored yet.
;; README.md tells how to use it.
;;
;; It speaks `rls session', which docs/SESSION.md describes.  The session counts characters as Emacs does, from 0.

;;; Code:

(require 'rls-compare)
(require 'rls-session)
(require 'rls-renaming)
(require 'rls-changes)
(require 'rls-mailbox)
(require 'rls-circle)

(defgroup rls nil "Texts that several people write, by rls." :group 'applications)
(defcustom rls-program "rls" "The program." :type 'string)
(defcustom rls-every 0.5 "Seconds between two looks into the shared folder; nil for none." :type '(choice number (const nil)))
(defcustom rls-rename-at 500 "Runs of identifiers from which it renames (docs/USE.md); 0 for never." :type 'natnum)
(defcustom rls-cursors t
  "Whether to tell where point is, and to show that of others.
It needs the second version of the session."
  :type 'boolean)

(defvar rls--busy nil "Whether a request waits for its reply, so that nothing else may ask.")
(defvar-local rls--folder nil)
(defvar-local rls--name nil "The name of the buffer.")
(defvar-local rls--timer nil)

(defun rls--send-due (buffer)
  "Sends what BUFFER has that isn't sent, if nothing is asked just now."
  (when (buffer-live-p buffer)
    (with-current-buffer buffer
      (if rls--busy (setq rls--due (run-with-timer 0.05 nil #'rls--send-due buffer))
        (when rls--unsaved (rls--try #'rls--send))))))

;;;; From the session to the buffer

(defun rls--before-p (at)
  "Whether a cursor AT stays with the character after it.
That is so at the beginning of a line."
  (and (<= (point-min) at) (< at (point-max)) (or (= at (point-min)) (eq (char-before at) ?\n))))

(defun rls--apply (changes)
  "Makes CHANGES of the session in the buffer, at their places.
What is elsewhere stays.  Answers the end of the last one; nil if there is none."
  (save-restriction
    (widen)
    (let ((cursors (mapcar (lambda (window) (cons window (copy-marker (window-point window) (rls--before-p (window-point window)))))
                           (get-buffer-window-list nil nil t)))
          (here (copy-marker (point) (rls--before-p (point)))) (rls--silent t) (inhibit-read-only t) last)
      (setq rls--edition (1+ rls--edition))
      (dolist (change changes)
        (string-match "\\`\\(.\\) \\([0-9]+\\) " change)
        (let ((at (1+ (string-to-number (match-string 2 change)))) (rest (substring change (match-end 0))))
          (setq last at)
          (if (eq ?d (aref change 0)) (delete-region at (+ at (string-to-number rest)))
            (goto-char at)
            (insert (rls--unescaped (decode-coding-string rest 'utf-8-unix)))
            (setq last (point)))))
      (goto-char here)
      (set-marker here nil)
      (dolist (cursor cursors)
        (set-window-point (car cursor) (cdr cursor))
        (set-marker (cdr cursor) nil))
      last)))

(defun rls--text ()
  (rls--flush)
  (let ((reply (rls--ask-all "t")))
    (rls--number (car reply) "text")
    (decode-coding-string (cadr reply) 'utf-8-unix)))

(defun rls--show ()
  "Shows the session's text, where the session doesn't tell what changed.
Only what differs is changed, so marks elsewhere stay.  With the first version
Emacs' own undo goes back to here and no further: it would take back what
others wrote."
  (setq rls--edition (1+ rls--edition))
  (let ((text (rls--text)) (rls--silent t) (other (generate-new-buffer " *rls-text*" t)))
    (with-current-buffer other (insert text))
    (save-restriction
      (widen)
      (replace-buffer-contents other 1))
    (kill-buffer other)
    (setq buffer-undo-list (>= rls--version 2))))

;;;; Undo

(defun rls--take-back (request nothing)
  "Asks for REQUEST of undo.  If there is nothing to take back it says NOTHING."
  (rls--try (lambda ()
              (rls--drain)
              (let ((reply (rls--ask-all request)))
                (cond ((equal (car reply) "no nothing") (message "%s" nothing))
                      ((string-prefix-p "no " (car reply)) (error "rls: %s" (car reply)))
                      ((= rls--version 1) (rls--edited) (rls--show))
                      (t (let ((last (rls--apply (nth 2 reply))))
                           (rls--edited)
                           (when last (goto-char last)))))
                (setq rls--boundary t rls--cut nil)))))

(defun rls-undo (&optional count)
  "Takes own edits back, whatever others did since.
With the second version of the session COUNT groups of them, also after they
were stored; with the first one the last edit that isn't stored yet."
  (interactive "p")
  (dotimes (_ (or count 1)) (rls--take-back (if (>= rls--version 2) "z" "u") "No further undo information")))

(defun rls-redo (&optional count)
  "Does COUNT groups of own edits again (second version of the session)."
  (interactive "p")
  (when (>= rls--version 2)
    (dotimes (_ (or count 1)) (rls--take-back "y" "No further redo information"))))

(define-minor-mode rls-undo-mode
  "Emacs' keys of undo take own edits back alone."
  :keymap (let ((map (make-sparse-keymap)))
            (define-key map [remap undo] #'rls-undo)
            (define-key map [remap undo-only] #'rls-undo)
            (define-key map [remap undo-redo] #'rls-redo)
            map))

;;;; Taking, storing and sending

(defun rls--take ()
  "Takes what came.
It waits until the session has answered what was asked before, since its
changes are of the text as it is then."
  (rls--drain)
  (let* ((window (get-buffer-window)) (at (1- (if window (window-point window) (point))))
         (found (progn (when (= rls--version 1) (rls--number (rls--ask (format "k %d" at)) "cursor"))
                       (rls--take-all)))
         (taken (car found)) (changes (cdr found)))
    (cond ((and (>= rls--version 2) (not rls--behind)) (when changes (rls--apply changes)))
          ((or taken rls--behind)
           (setq rls--behind nil)
           (rls--show)
           (when (= rls--version 1)
             (let ((now (1+ (rls--number (rls--ask "p") "cursor"))))
               (goto-char now)
               (when window (set-window-point window now))))))
    (when taken
      (setq rls--lookup-due t)
      (rls--edited t))))

(defun rls--stored (reply)
  (unless (equal reply "saved") (error "rls: not stored"))
  (rls--look-for rls--folder)
  (setq rls--given 0 rls--fault nil))

(defun rls--begin-again ()
  "Ends the session, and begins another one.
With the first version only the end of a session writes the file.  The cursor
goes over, and what `u' could take back doesn't."
  (let ((at (rls--number (rls--ask "p") "cursor")))
    (rls--stored (rls--ask "q"))
    (rls--end-process)
    (rls--begin rls-program rls--folder)
    (rls--number (rls--ask (format "k %d" at)) "cursor")))

(defun rls--stat ()
  "What `rls stat' prints: of the stored file with the first version."
  (if (>= rls--version 2) (cadr (rls--ask-all "n"))
    (let ((default-directory rls--folder) (program rls-program))
      (with-temp-buffer
        (call-process program nil '(t nil) nil "stat")
        (buffer-string)))))

(defun rls--number-of (word stat)
  "The number after WORD in what `rls stat' prints."
  (if (string-match (format "^%s \\([0-9]+\\)$" word) stat) (string-to-number (match-string 1 stat)) 0))

(defun rls--rename-due-p ()
  "Whether a rename is due.
Where the program has no line `o', or somebody else may have changed what is
long, it looks only if an eighth of the limit has changed since it looked last."
  (when (> rls-rename-at 0)
    (let* ((is-long-ago (>= (* 8 rls--changes) rls-rename-at)) (told (if (>= rls--version 4) (rls--ask "o") "bad")))
      (when is-long-ago (setq rls--changes 0))
      (cond ((not (equal told "bad")) (rls--rename-pays-p told rls--members rls-rename-at is-long-ago))
            (is-long-ago
             (let ((stat (rls--stat)))
               (> (rls--number-of "runs" stat) (* rls-rename-at (min 8 (rls--number-of "epochs" stat))))))))))

(defun rls--rename-if-due ()
  "Renames if that is due."
  (when (rls--rename-due-p)
    (let* ((told (rls--ask-all "r")) (reply (car told)))
      (if (string-prefix-p "no " reply) (rls--rename-refused (substring reply 3))
        (rls--number reply "ok")
        (when (nth 2 told) (rls--apply (nth 2 told)))
        (when (= rls--version 1) (rls--begin-again))))))

(defun rls--send ()
  "Stores, and then writes the messages.
What isn't stored may be sent to nobody, since a crash would give its numbers
to other edits.  With the second version nothing waits: the messages are asked
for, then it is stored, and what was answered is written after that."
  (setq rls--unsaved nil)
  (let (messages)
    (if (>= rls--version 2) (unless rls--waiting (rls--rename-if-due))
      (rls--drain)
      (rls--begin-again)
      (rls--rename-if-due))
    (dotimes (to rls--members)
      (unless (= to rls--me)
        (rls--send-request (format "s %d%s" to (rls--told to)) nil
                           (lambda (reply message _)
                             (rls--number reply "message")
                             (push (cons to message) messages)))))
    (let ((write (lambda ()
                   (rls--write-messages (nreverse messages))
                   (unless rls--unsaved (set-buffer-modified-p nil)))))
      (if (= rls--version 1) (progn (rls--drain) (funcall write))
        (rls--send-request "w" nil (lambda (reply &rest _)
                                     (rls--stored reply)
                                     (funcall write)))
        (rls--show-cursors)))))

(defun rls--show-cursors ()
  "Tells where point is, and shows that of others.
Each question but an edit has the session make operations of what was typed, so
with the third version this is done when it has to make them anyway, and when
nothing was typed since."
  (when (and rls-cursors (>= rls--version 2))
    (rls--show-point)
    (rls--show-others)))

(defun rls--tick ()
  "What the timer does.  It doesn't wait for what was asked before: it looks again."
  (unless (process-live-p rls--process) (rls--drain))
  (unless rls--waiting
    (unless (and rls--unsaved (> rls--waits-until (float-time))) (rls--take))
    (rls--write-again)
    (unless (and (>= rls--version 3) rls--unsaved) (rls--show-cursors)))
  (when (> (* 2 rls--given) rls--most-input) (rls--send)))

;;;; The buffer

(defun rls--try (what)
  "Calls WHAT.
After a fault nothing more is done with the buffer, which keeps what it shows."
  (when rls--parts (rls--flush))
  (unless rls--failed
    (condition-case fault (let ((rls--busy t) (inhibit-quit nil)) (funcall what))
      ;; After a quit the reply to a request may still come, and would be taken for that of another.
      ((error quit) (rls--fail (if (eq (car fault) 'quit) "rls: given up" (error-message-string fault))))))
  (force-mode-line-update))

(defun rls-sync ()
  "Stores, takes what came and sends what is new.
After a fault it opens the replica again."
  (interactive)
  (let ((failed rls--failed))
    (condition-case fault (when failed (let ((rls--busy t)) (rls--open-again)))
      ((error quit)
       (setq rls--failed nil)
       (rls--fail (if (eq (car fault) 'quit) "rls: given up" (error-message-string fault))))))
  (rls--try (lambda () (rls--take) (rls--send) (rls--drain)))
  t)

(defun rls--close ()
  "Stores what isn't stored.  It isn't sent before the replica is opened again."
  (dolist (timer (list rls--timer rls--due)) (when timer (cancel-timer timer)))
  (when rls--process
    ;; At the end of its input a session stores too, and then the folder is free.
    (if rls--failed
        (rls--end-badly)
      (rls--try (lambda () (rls--ask "q") (rls--end-process))))
    (rls--release rls--folder)
    (rls--write-file rls--where)))

(defun rls--let-go ()
  "Ends the session without waiting: at the end of its input it stores."
  (dolist (timer (list rls--timer rls--due)) (when timer (cancel-timer timer)))
  (when rls--process (ignore-errors (process-send-eof rls--process))))

(defvar rls--asked 0 "When Emacs was asked to end.")

(defun rls--asked ()
  "Remembers that Emacs was asked to end."
  (setq rls--asked (float-time))
  t)

(defun rls--close-all ()
  "Ends all sessions.
If a signal ends Emacs, since its terminal is gone, it may wait for ever for a
process that is dead; so it waits only if it was asked to end just now."
  (let ((close (if (< (- (float-time) rls--asked) 60) #'rls--close #'rls--let-go)))
    (dolist (buffer (buffer-list))
      (when (and (buffer-live-p buffer) (buffer-local-value 'rls--process buffer))
        (with-current-buffer buffer (funcall close)))))
  (rls--wait-for-files))

(defun rls--trouble ()
  "What is wrong with the replica, if something is.
Since a fault nothing is stored; while its number may be used twice nothing is
sent."
  (or rls--fault
      (let ((waits (rls--waits))) (when (>= waits 3) (format "NOT stored: the program has not answered for %d s" waits)))
      (cadr rls--twice)
      (cdar rls--ahead)))

(defun rls--status ()
  "What the mode line says of the replica."
  (let ((trouble (rls--trouble)))
    (concat (when trouble (propertize trouble 'face 'error))
            (unless rls--failed
              (format "%s%smember %s of %s%s%s%s%s" (if trouble "; " "") (if rls--where (concat (nth 4 rls--where) ", ") "") rls--me rls--members
                      (if rls--unsaved ", not stored" "") (rls--wrote) (if rls--away ", the shared folder is not there" "")
                      (mapconcat (lambda (x) (format ", message %s: %s" (car x) (cdr x))) rls--problems ""))))))

(defun rls--save ()
  "What saving does: `rls-sync'.
If a file was named, by `write-file', the text is written there as a copy, as
`rls text' prints it, and the buffer goes on with the replica."
  (let ((file buffer-file-name))
    (when file
      (let ((change-major-mode-with-file-name nil)) (set-visited-file-name nil t))
      (rename-buffer rls--name t)
      (save-restriction
        (widen)
        (let ((coding-system-for-write 'utf-8-unix)) (write-region (point-min) (point-max) file)))))
  (rls-sync))

;; Another major mode forgets what is local to a buffer; the replica stays in it.
(defvar rls-mode)
(defun rls--stay ()
  "Has Emacs call `rls--changed' after a change of the major mode.
Emacs keeps the hook, and calls it only once somebody has looked at it."
  (when rls-mode
    (add-hook 'before-change-functions #'rls--changing nil t)
    (add-hook 'after-change-functions #'rls--changed nil t)))

(dolist (function '(rls--before-command rls--changing rls--changed rls--flush rls--save rls--close)) (put function 'permanent-local-hook t))
(dolist (variable '(rls-mode rls-undo-mode rls--parts rls--later-parts rls--waits-until rls--cut rls--replaced rls--edition rls--fault rls--waiting-end rls--typing rls--heard rls--begun rls--opening rls--folder rls--name rls--unsaved rls--since rls--due rls--timer rls--steps rls--boundary
                             rls--typed rls--told rls--spent rls--own rls--put rls--limits-told rls--behind rls--process rls--version rls--telling rls--given rls--waiting rls--failed
                             rls--shared rls--head rls--group rls--members rls--me rls--seen rls--taken rls--sent rls--last rls--marks
                             rls--looked rls--away rls--changes rls--problems rls--shown rls--place rls--places rls--lookup-due
                             rls--overlays rls--labels rls--twice rls--ahead rls--stopped rls--where rls--last-writer))
  (put variable 'permanent-local t))

(define-minor-mode rls-mode
  "What `rls-open' turns on in its buffers."
  :lighter (" " (:eval (rls--status)))
  :keymap (make-sparse-keymap)
  (when rls-mode
    (add-hook 'pre-command-hook #'rls--before-command nil t)
    (add-hook 'before-change-functions #'rls--changing nil t)
    (add-hook 'after-change-functions #'rls--changed nil t)
    (add-hook 'post-command-hook #'rls--flush nil t)
    (add-hook 'write-contents-functions #'rls--save nil t)
    (add-hook 'kill-buffer-hook #'rls--close nil t)
    (add-hook 'after-change-major-mode-hook #'rls--stay)
    (add-hook 'kill-emacs-query-functions #'rls--asked)
    (add-hook 'kill-emacs-hook #'rls--close-all)
    (when (>= rls--version 2) (rls-undo-mode 1))))

(defun rls--begin-timer (buffer)
  (setq rls--timer (run-with-timer rls-every rls-every
                                   (lambda ()
                                     (when (and (buffer-live-p buffer) (not rls--busy))
                                       (with-current-buffer buffer (rls--try #'rls--tick)))))))

(defun rls--open-again ()
  "Opens the replica of a buffer again after a fault.
What was typed and isn't in the replica is put in again; nothing is deleted,
since what isn't in the buffer may be of others."
  (rls--end-badly)
  (rls--look-for rls--folder)
  (setq rls--parts nil rls--later-parts nil rls--unsaved nil rls--behind nil rls--boundary t rls--cut nil rls--taken nil rls--seen nil rls--ahead nil rls--fault nil)
  (let ((fault rls--failed))
    (setq rls--failed nil)
    (unwind-protect
        (progn
          (rls--begin rls-program rls--folder)
          (rls--take-all)
          (let* ((stored (rls--text)) (shown (save-restriction (widen) (buffer-substring-no-properties (point-min) (point-max))))
                 (joined (rls--joined stored shown)) (rls--silent t))
            (setq fault nil)
            (rls--hold rls--folder)
            (save-restriction
              (widen)
              (unless (equal joined shown)
                (erase-buffer)
                (insert joined))
              (setq rls--parts (list (list (point-min) (point-max) stored))))))
      (setq rls--failed fault rls--fault (concat "NOT stored: " (replace-regexp-in-string "\\`rls: " "" (or fault "not yet")))))))

(defun rls--joined (text other)
  "TEXT with what OTHER has beside: nothing of TEXT goes.
It takes the time that it needs: of lines that aren't compared by words all
would be there twice."
  (let ((parts nil) (passed 0) (rls-compare-seconds 1.0e9) (rls-compare--joins t))
    (dolist (x (reverse (rls-compare text other)))
      (let* ((at (nth 0 x)) (to (+ at (nth 1 x))) (come (nth 2 x)))
        ;; A part of a word comes in place of another one: both words are there, with a space between.
        (when (and (string-match-p "[^\t-\r ]" (substring text at to)) (string-match-p "[^\t-\r ]" come))
          (let ((end (or (string-match "[\t-\r ]" text to) (length text))))
            (setq come (concat " " (substring text (string-match "[^\t-\r ]*\\'" (substring text 0 at)) at) come (substring text to end)) to end)))
        (when (< passed to) (push (substring text passed to) parts))
        (push come parts)
        (setq passed (max passed to))))
    (apply #'concat (nreverse (cons (substring text passed) parts)))))

(defun rls--learn ()
  "Which member this is: the head of a message tells it.
A message to oneself has a head alone."
  (setq rls--head (rls--message (if (>= rls--version 2) (rls--number-of "me" (rls--stat)) 0))
        rls--group (+ (ash (rls--u32 rls--head 5) 32) (rls--u32 rls--head 9))
        rls--members (rls--u32 rls--head 13) rls--me (rls--u32 rls--head 17)))

(defun rls--make-shared ()
  "Makes the shared folder, if it isn't there."
  (unless (file-directory-p rls--shared)
    (make-directory rls--shared t)
    (message "rls: made the shared folder%s"
             (if (zerop (logand #o020 (file-modes rls--shared))) "; nobody else on this machine may write into it" ""))))

(defun rls--open-new (folder shared place)
  "A buffer for the replica of FOLDER, whose messages go through SHARED.
PLACE is what `rls where' says of it, if it is of a circle."
  (let ((buffer (generate-new-buffer (concat "rls:" (or (nth 2 place) (file-name-nondirectory (directory-file-name folder)))))) done)
    (with-current-buffer buffer
      (unwind-protect
          (progn
            (text-mode)
            (setq-local require-final-newline nil)
            (setq rls--folder folder rls--shared shared rls--where place rls--name (buffer-name) default-directory folder)
            (rls--make-shared)
            (setq rls--changes rls-rename-at rls--opening t)
            (rls--begin rls-program folder)
            (rls--learn)
            (rls--show)
            (setq done t rls--opening nil))
        (unless done
          (when rls--process (rls--kill))
          (kill-buffer buffer)))
      (rls--hold folder)
      (goto-char (point-min))
      (rls-mode 1)
      (when rls-every (rls--begin-timer buffer))
      (when place (rls--begin-tending shared))
      (rls-sync))
    buffer))

(defun rls--show-text (folder)
  "A buffer with the text of the replica of FOLDER, to be read alone.
`revert-buffer' reads it again."
  (with-current-buffer (generate-new-buffer (concat "rls (read only):" (file-name-nondirectory (directory-file-name folder))))
    (text-mode)
    (setq default-directory folder buffer-read-only t)
    (setq-local revert-buffer-function #'rls--read-text)
    (rls--read-text)
    (current-buffer)))

(defun rls--read-text (&rest _)
  "Reads the text of the replica of `default-directory' into the buffer."
  (let ((inhibit-read-only t) (coding-system-for-read 'utf-8-unix))
    (erase-buffer)
    (call-process rls-program nil t nil "text")
    (goto-char (point-min))
    (set-buffer-modified-p nil)))

(defun rls--place-of (first second)
  "Where the text is that FIRST and SECOND name, as `rls--where'; a list without
a name for the replica in FIRST, whose messages go through SECOND."
  (if (or (rls--replica-p first) (and second (not (ignore-errors (directory-files first nil "\\.circle\\'")))))
      (progn
        (unless second (user-error "rls: say the shared folder, too: (rls-open FOLDER SHARED)"))
        (rls--look-for first)
        (rls--keep-apart first second)
        (list (expand-file-name first) (expand-file-name second)))
    (rls--find first second)))

;;;###autoload
(defun rls-open (first &optional second)
  "Opens the shared text whose plain file is FIRST.
FIRST may be a shared folder, too, and SECOND the name of a text there; or FIRST
is the folder of a replica, and SECOND that for its messages.  After a fault it
opens the replica again in its buffer."
  (interactive (let ((first (read-file-name "Shared file or folder: ")))
                 (list first (when (rls--replica-p first) (read-directory-name "Shared folder: ")))))
  (let* ((place (rls--place-of first second)) (folder (file-name-as-directory (car place))) (place-or-none (and (cddr place) place))
         (buffer (seq-find (lambda (x) (equal folder (buffer-local-value 'rls--folder x))) (buffer-list))))
    (unless buffer (rls--bring-in place))
    (if (not buffer) (setq buffer (or (catch 'rls-read (rls--open-new folder (nth 1 place) place-or-none)) (rls--show-text folder)))
      (with-current-buffer buffer
        (when rls--failed (rls-sync))))
    (when (called-interactively-p 'any) (switch-to-buffer buffer))
    buffer))

(provide 'rls)
;;; rls.el ends here
