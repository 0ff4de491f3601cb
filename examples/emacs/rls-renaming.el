;;; rls-renaming.el --- When a session renames -*- lexical-binding: t -*-

;;; Commentary:

;; docs/USE.md, "When to rename".  What was spent since the last rename is the
;; bytes of own operations that no plain text needs.

;;; Code:

(require 'rls-session)

(defconst rls--run-bytes 64 "So many bytes of a rename's operation count as a run.")
(defconst rls--plain-bytes 200
  "An own operation may have so many beside its text, and 4 for each member.
More than that was spent.")
(defconst rls--latest 4
  "A rename is due in any case from one part in so many of the limit on.")

(defvar-local rls--spent 0 "Bytes that were spent since the last rename.")
(defvar-local rls--own nil "Own operations and their bytes, as they were told last.")
(defvar-local rls--told nil "Whether it was said that a rename was refused.")

(defun rls--costs (told)
  "What TOLD, a reply to `o', tells: a function from a word to its number."
  (let ((words (split-string told " ")))
    (lambda (word) (string-to-number (cadr (member word words))))))

(defun rls--spend (costs members)
  "Adds what COSTS tell that was spent since the last look, among MEMBERS."
  (let* ((own (funcall costs "own")) (bytes (funcall costs "bytes")))
    (when (and rls--own rls--put)
      ;; Others may have taken some of them meanwhile.
      (let ((seen (if (>= own (car rls--own)) rls--own '(0 . 0))))
        (setq rls--spent (+ rls--spent (max 0 (- bytes (cdr seen) rls--put (* (- own (car seen)) (+ rls--plain-bytes (* 4 members)))))))))
    (setq rls--own (cons own bytes) rls--put 0)))

(defun rls--rename-pays-p (told members limit is-long-ago)
  "Whether to rename now, by TOLD, a reply to `o', among MEMBERS; it is done then.
A look that IS-LONG-AGO sees what all members did, with LIMIT, and any look
what this one spent."
  (let ((costs (rls--costs told)))
    (rls--spend costs members)
    (let ((size (funcall costs "rename")))
      (when (or (> rls--spent size)
                (and is-long-ago
                     (or (> (* size rls--latest) (funcall costs "limit"))
                         (and (= (funcall costs "epochs") 1) (> size (* rls--run-bytes limit))))))
        ;; With the rename, which is one more operation, of that size.
        (setq rls--spent 0 rls--own (cons (1+ (car rls--own)) (+ size (cdr rls--own))))))))

(defun rls--rename-refused (reason)
  "Tells that the rename was refused for REASON, once."
  (unless rls--told
    (setq rls--told t)
    (message "rls: the text can't be renamed any more (%s), so files and messages stay large: `rls restart' begins anew with the text (docs/USE.md, \"Where a limit is met\")"
             reason)))

(provide 'rls-renaming)
;;; rls-renaming.el ends here
