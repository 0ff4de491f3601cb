;;; rls-limits.el --- What is told before a limit is met  -*- lexical-binding: t -*-

;;; Commentary:

;; Once, in plain words, with the command that helps: docs/USE.md, "Where a
;; limit is met".

;;; Code:

(require 'rls-files)

(defconst rls--nearly-full 241591911 "Nine tenths of what a stored file may have.")
(defconst rls--most-kept 4194304 "So many bytes for one member, of whom nothing came for long.")
(defconst rls--most-silent (* 7 86400) "So many seconds are long.")
(defvar-local rls--limits-told nil "Of what was told: members, and `file'.")

(defun rls--tell-once (what line)
  "Tells LINE, if there is one, once for WHAT it is of."
  (when (and line (not (memq what rls--limits-told)))
    (push what rls--limits-told)
    (message "rls: %s" line)))

(defun rls--size-told (path)
  "The size of the replica that the slot at PATH tells, in its first eight bytes."
  (with-temp-buffer
    (set-buffer-multibyte nil)
    (insert-file-contents-literally path nil 0 8)
    (+ (ash (rls--u32 (buffer-string) 0) 32) (rls--u32 (buffer-string) 4))))

(defun rls--told-of-file (folder)
  "What to tell if the stored file in FOLDER is nearly full.
Both slots are asked, since the last store may have made it shorter."
  (let* ((slots (mapcar (lambda (name) (expand-file-name name folder)) '("replica.0" "replica.1")))
         (size (if (seq-every-p (lambda (path) (>= (or (rls--size path) 0) rls--nearly-full)) slots)
                   (apply #'min (mapcar #'rls--size-told slots))
                 0)))
    (when (>= size rls--nearly-full)
      (format "the stored file has %d bytes of the 268435456 that it may have. When it is full, nothing can be stored any more. It gets shorter once messages show that the others have what is in it. If that doesn't help, `rls restart' begins anew with the text"
              size))))

(defun rls--told-of-member (to size path)
  "What to tell if a message to TO of SIZE bytes is long, and TO is silent.
Its last message is at PATH."
  (let* ((file (file-attributes path)) (came (and file (file-attribute-modification-time file))))
    (unless (or (< size rls--most-kept) (and came (< (float-time (time-since came)) rls--most-silent)))
      (format "each file keeps %d bytes for member %d, of whom nothing %s; each message to it has them again: %s" size to
              (if came (format-time-string "has come since %Y-%m-%d" came) "ever came")
              (if came "if that member won't come back, `rls restart' goes on in a new group with the text"
                (format "`rls retire %d' ends that, if nobody will use the number" to))))))

(provide 'rls-limits)
;;; rls-limits.el ends here
