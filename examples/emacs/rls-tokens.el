;;; rls-tokens.el --- How a replica sees that another one has its number  -*- lexical-binding: t -*-

;;; Commentary:

;; In its own folder a replica keeps a token that nobody else has, and what it wrote last into a shared folder; there it keeps a file whose name has
;; its number and the token.  The README of the examples says it under "When a number is used twice".

;;; Code:

(require 'rls-files)
(defvar rls--folder)
(defvar rls--shared)
(defvar rls--group)
(defvar rls--me)

(defconst rls--most-token 4096 "Bytes of a file that shows a token.")
(defvar-local rls--twice nil "The file that shows that the number is used twice, and what the mode line says.")
(defvar-local rls--stopped nil "Whether nothing was taken and sent since, because of that.")

(defun rls--new-word ()
  "Sixteen hexadecimal digits by chance."
  (substring (secure-hash 'sha256 (format "%s %s %s %s" (random) (float-time) (emacs-pid) (system-name))) 0 16))

(defun rls--words-of (path pattern)
  "The three groups of PATTERN in a small file; nil if there is no such file."
  (let ((data (or (ignore-errors (rls--read path rls--most-token)) "")))
    (save-match-data
      (when (string-match pattern data) (mapcar (lambda (k) (match-string k data)) '(1 2 3))))))

(defun rls--own-record (&optional is-more)
  "What this replica wrote: its token, how many times, and what it called the last.
With IS-MORE what it is about to write.  Nil if its folder may not be written.
The line is written in place, so that it is whole at each moment.  A session
holds the folder against others."
  (let* ((path (expand-file-name "replica.token" rls--folder)) (coding-system-for-write 'binary) (write-region-inhibit-fsync nil)
         (was (rls--words-of path "\\`\\([0-9a-f]\\{16\\}\\) \\([0-9]\\{20\\}\\) \\([0-9a-f]\\{16\\}\\)\n\\'"))
         (token (or (car was) (rls--new-word))) (times (if was (string-to-number (nth 1 was)) 0)))
    (when (and (or (rls--size path) (not (file-attributes path))) (file-writable-p path))
      (if (and was (not is-more)) (list token times (nth 2 was))
        (let ((now (list token (if was (1+ times) 0) (rls--new-word))))
          (ignore-errors
            ;; From the first byte on, and not as a new file.
            (write-region (apply #'format "%s %020d %s\n" now) nil path 0 'silent)
            now))))))

(defun rls--token-path (token) (expand-file-name (format "%d-%d-%s.member" rls--group rls--me token) rls--shared))

(defun rls--show-token ()
  "Says in the shared folder that this replica writes, before it does."
  (let ((now (rls--own-record t)))
    (when now (rls--write (rls--token-path (car now)) (format "%d %s\n" (nth 1 now) (nth 2 now))))))

(defun rls--stop (path why)
  "From now on nothing is taken and nothing is written.
PATH shows that this replica's number is used twice, and WHY."
  (setq rls--twice (list path (format "NOT sent: number %d is used twice, as %s shows" rls--me (file-name-nondirectory path))) rls--stopped t)
  (message "rls: number %d of text %d is used twice: %s, as %s shows. Nothing is taken or sent until that file is gone: docs/USE.md, \"A number used twice\""
           rls--me rls--group why path))

(defun rls--why-twice (own path)
  "Why PATH shows that another one than this replica has its number, if it does.
OWN is what this replica wrote."
  (if (not (equal path (rls--token-path (car own)))) "another replica has this number"
    (pcase-let ((`(,times ,last) (rls--words-of path "\\`\\([0-9]\\{1,20\\}\\) \\([0-9a-f]\\{16\\}\\)\\(\\)")))
      (when (and times (or (> (string-to-number times) (nth 1 own))
                           (and (= (string-to-number times) (nth 1 own)) (not (equal last (nth 2 own))))))
        "a copy of this replica wrote there, or its files were put back from one"))))

(defun rls--may-write-p ()
  "Whether this replica may take and write.
If not, it stays so until the file that shows it is gone."
  (unless (and rls--twice (or (file-exists-p (car rls--twice)) (file-symlink-p (car rls--twice))))
    (setq rls--twice nil)
    (let* ((paths (ignore-errors (directory-files rls--shared t (format "\\`%d-%d-[0-9a-f]\\{16\\}\\.member\\'" rls--group rls--me))))
           (own (and paths (rls--own-record))))
      (while (and own paths (not rls--twice))
        (let* ((path (pop paths)) (why (rls--why-twice own path)))
          (when why (rls--stop path why))))
      (not rls--twice))))

(provide 'rls-tokens)
;;; rls-tokens.el ends here
