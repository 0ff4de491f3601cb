;;; rls-changes.el --- From the buffer to the session  -*- lexical-binding: t -*-

;;; Commentary:

;; What a command changed in the buffer is compared with what was there before it, and handed on place by place.

;;; Code:

(require 'rls-compare)
(require 'rls-session)
(declare-function rls--try "rls")
(declare-function rls--send-due "rls")

(defcustom rls-idle 1 "Seconds without an edit, after which edits are stored and sent." :type 'number :group 'rls)
(defcustom rls-most 3 "Seconds after which edits are stored and sent also while somebody types on." :type 'number :group 'rls)
(defcustom rls-hold 3
  "Seconds for which what went waits for what is typed in its place.
Until then it isn't stored and sent, with the third version of the session."
  :type 'number :group 'rls)

(defvar rls--silent nil "Whether a change of the buffer comes from the session.")
(defvar-local rls--unsaved nil "Whether something isn't stored yet.")
(defvar-local rls--since 0 "When the first edit was made that isn't stored.")
(defvar-local rls--waits-until 0 "Until when what went waits for what is typed in its place.")
(defvar-local rls--cut nil "Whether the last edit took something away and put nothing there.")
(defvar-local rls--due nil "The timer that sends.")
(defvar-local rls--boundary nil "Whether the next edit begins a group of undo.")
(defvar-local rls--typed 0 "How many keys the group has that were typed.")
(defvar-local rls--typing nil "Whether the last command typed, and if so, whether it `corrects'.")
(defconst rls--corrections '(delete-backward-char backward-delete-char-untabify backward-delete-char backward-kill-word))
(defconst rls--most-steps 5000
  "Edits that are undone at once.
A session forgets a group that has more than 10,000.")
(defvar-local rls--steps 0 "How many edits the group has.")
(defvar-local rls--replaced 0 "How many places the command has changed.")
(defvar-local rls--edition 0 "How often the text has changed.")
(defvar-local rls--behind nil "Whether the session changed something that isn't told.")
(defvar-local rls--changes 0 "How much has changed since the runs were looked at.")

(defun rls--escaped (text)
  (replace-regexp-in-string "[\\\n\r]" (lambda (c) (pcase c ("\\" "\\\\") ("\n" "\\n") (_ "\\r"))) text t t))

(defun rls--unescaped (text)
  (replace-regexp-in-string "\\\\." (lambda (c) (pcase (aref c 1) (?n "\n") (?r "\r") (_ "\\"))) text t t))

(defun rls--before-command ()
  "Keys that insert themselves, and those that correct them, are undone together.
Twenty keys are, and what is corrected then; what each other command did is
undone by itself."
  (let ((types (eq this-command 'self-insert-command)) (corrects (memq this-command rls--corrections)))
    (if (and rls--typing (or corrects (and types (or (< rls--typed 20) (eq rls--typing 'corrects)))))
        (setq rls--typed (1+ rls--typed))
      (setq rls--boundary t rls--typed 1))
    (setq rls--typing (cond (types 'types) (corrects 'corrects)))))

(defvar-local rls--parts nil
  "The parts of the buffer that were changed and aren't handed on yet.
Each is (FROM TO TEXT): from FROM to TO the buffer had TEXT.  They don't touch.
The one that was changed last comes first, and then those before it, the last
first.")
(defvar-local rls--later-parts nil
  "The parts after the one that was changed last, the first one first.
Their places are those of `rls--turned', so that no change before them moves
them.")

(defun rls--turned (part)
  "PART with its places counted from the end of the buffer.
If they were counted so, they aren't any more."
  (let ((end (1+ (buffer-size)))) (list (- end (nth 1 part)) (- end (nth 0 part)) (nth 2 part))))

(defun rls--united (from to parts)
  "One part from FROM to TO, and over PARTS, which rise."
  (let ((texts nil) (at (min from (or (nth 0 (car parts)) from))))
    (setq from at)
    (dolist (part parts)
      (push (buffer-substring-no-properties at (nth 0 part)) texts)
      (push (nth 2 part) texts)
      (setq at (nth 1 part)))
    (when (< at to) (push (buffer-substring-no-properties at to) texts))
    (list from (max at to) (apply #'concat (nreverse texts)))))

(defun rls--changing (from to)
  "Remembers what is there before a change.
One command may change a place several times, as what is filled anew or piped
through a program: first all goes, and then other text comes.  So what it
changes is put together, and compared once it is done."
  (unless (or rls--silent rls--failed)
    (save-restriction
      (widen)
      (while (and rls--parts (> (nth 0 (car rls--parts)) to)) (push (rls--turned (pop rls--parts)) rls--later-parts))
      (while (and rls--later-parts (<= (nth 0 (rls--turned (car rls--later-parts))) to)) (push (rls--turned (pop rls--later-parts)) rls--parts))
      (let ((touched nil))
        (while (and rls--parts (>= (nth 1 (car rls--parts)) from)) (push (pop rls--parts) touched))
        (push (rls--united from to touched) rls--parts)))))

(defun rls--changed (from to gone)
  "Notes how long what was changed is now."
  (unless (or rls--silent rls--failed (not rls--parts))
    (setf (nth 1 (car rls--parts)) (+ (nth 1 (car rls--parts)) (- to from) (- gone)))
    ;; Outside of a command, as in a timer or a program, nothing tells the end.
    (unless this-command (rls--flush))))

(defun rls--blank-p (from to)
  "Whether there is nothing but white space from FROM to TO."
  (save-excursion (goto-char from) (skip-chars-forward "\t-\r " to) (= (point) to)))

(defun rls--differences ()
  "What has become of the parts: lists (AT OLD NEW BEFORE AFTER), which rise.
From AT on the buffer has NEW, where it had OLD.  Of both the first BEFORE and
the last AFTER characters stay: beside a part that ended with white space, the
white space and one character more on each side.  Parts with nothing but white
space between them are one."
  (let ((parts nil) (found nil))
    (dolist (part (append (reverse rls--parts) (mapcar #'rls--turned rls--later-parts)))
      (if (and parts (rls--blank-p (nth 1 (car parts)) (nth 0 part)))
          (setcar parts (rls--united (nth 0 part) (nth 1 part) (list (car parts) part)))
        (push part parts)))
    (pcase-dolist (`(,from ,to ,gone) parts)
      (unless (equal gone (buffer-substring-no-properties from to))
        (let ((low from) (high to))
          (when (string-match-p "[\t-\r ]\\'" gone)
            (save-excursion
              (goto-char from) (skip-chars-backward "\t-\r ") (setq low (max (point-min) (1- (point))))
              (goto-char to) (skip-chars-forward "\t-\r ") (setq high (min (point-max) (1+ (point))))))
          (let ((before (buffer-substring-no-properties low from)) (after (buffer-substring-no-properties to high)))
            (push (list low (concat before gone after) (buffer-substring-no-properties low high) (- from low) (- high to)) found)))))
    found))

(defun rls--flush ()
  "Hands to the session what was changed."
  (when (and rls--parts (not rls--failed))
    (save-match-data
      (let ((differences (save-restriction (widen) (rls--differences))))
        (setq rls--parts nil rls--later-parts nil)
        (when differences (rls--try (lambda () (rls--hand differences))))))))

(defun rls--hand (differences)
  "Hands DIFFERENCES on, from the first to the last."
  (when rls--boundary (setq rls--replaced 0))
  (let ((coarse nil))
    (pcase-dolist (`(,from ,old ,new ,before ,after) differences)
      (dolist (x (rls-compare old new before after))
        (rls--end-group)
        (rls--replace (+ from -1 (nth 0 x)) (nth 1 x) (nth 2 x))
        (setq rls--cut (equal (nth 2 x) "") rls--replaced (1+ rls--replaced))
        (when (= rls--replaced (1+ (* 2 rls--most-steps)))
          (message "rls: of so many places that one command changes, undo takes back the last 10,000")))
      (setq coarse (or coarse rls-compare-was-coarse)))
    (when coarse (message "rls: a change this large was compared line by line, not word by word")))
  (setq rls--edition (1+ rls--edition))
  (rls--edited))

(defun rls--end-group ()
  "Ends the group of undo, if another command begins or it has enough steps."
  (when (and (>= rls--version 2) (or rls--boundary (>= rls--steps rls--most-steps)))
    (rls--send-request "g" nil #'ignore)
    (setq rls--steps 0))
  (setq rls--boundary nil))

(defun rls--replace (at count text)
  "From AT on COUNT characters become TEXT.
With the third version of the session that is one request, and the session makes
operations of such changes when it has to.  With an older one what comes is put
behind what goes, and then that goes: so the run of identifiers that ends there
goes on."
  (let ((comes (not (equal text ""))) (goes (> count 0)))
    (if (>= rls--version 3) (rls--edit (format "e %d %d %s" at count (rls--escaped text)))
      (when comes (rls--edit (format "i %d %s" (+ at count) (rls--escaped text))))
      (when goes (rls--edit (format "d %d %d" at count))))
    (setq rls--steps (+ rls--steps (if goes 1 0) (if comes 1 0)))))

(defun rls--edit (request)
  "Asks for an edit that is in the buffer already."
  (rls--send-request request nil
                     (lambda (reply _ changes)
                       (unless (equal reply "ok") (rls--number reply "ok"))
                       ;; The first change is the edit itself.  More are rare, and come from operations that waited: the buffer may have
                       ;; gone on since.
                       (when (cdr changes) (setq rls--behind t)))))

(defun rls--edited (&optional is-taken)
  "From now on something isn't stored.
It is sent `rls-idle' after the last edit, and at the latest `rls-most' after
the first.  If IS-TAKEN, it counts as an edit only if nothing else waits.

After an edit that took something away it is sent `rls-hold' later: what is
typed in its place goes on with what was typed before, if the session has made
no operations by then."
  (setq rls--changes (1+ rls--changes))
  (unless (and is-taken rls--unsaved)
    (let ((now (float-time)) (buffer (current-buffer)))
      (unless rls--unsaved (setq rls--unsaved t rls--since now))
      (setq rls--waits-until (if (and (>= rls--version 3) rls--cut (not is-taken)) (+ rls-hold (min now (+ rls--since rls-most))) 0))
      (when rls--due (cancel-timer rls--due))
      (setq rls--due (run-with-timer (max 0 (min rls-idle (- (+ rls--since rls-most) now)) (- rls--waits-until now)) nil
                                     #'rls--send-due buffer)))))

(provide 'rls-changes)
;;; rls-changes.el ends here
