;;; rls-files.el --- Files in a folder that others write into  -*- lexical-binding: t -*-

;;; Code:

(defun rls--u32 (data at)
  "The number in the four bytes of DATA from AT on."
  (let ((number 0))
    (dotimes (k 4) (setq number (+ (* 256 number) (aref data (+ at k)))))
    number))

(defun rls--size (path)
  "How many bytes PATH has, if it is a regular file; nil otherwise.
A folder that others write into may have a link, a pipe or a folder there."
  (let ((told (file-attributes path)))
    (and told (eq ?- (aref (file-attribute-modes told) 0)) (file-attribute-size told))))

(defun rls--mark (path)
  "What tells whether PATH is another file than before; nil if nothing is there."
  (let ((told (file-attributes path)))
    (and told (list (file-attribute-inode-number told) (file-attribute-size told) (file-attribute-modification-time told) (file-attribute-modes told)))))

(defun rls--read (path most)
  "The bytes of PATH; nil if nothing is there.
What isn't a regular file, or has more than MOST bytes, is an error and isn't
opened."
  (when (or (file-exists-p path) (file-symlink-p path))
    (let ((size (rls--size path)))
      (unless size (error "%s is no file" (file-name-nondirectory path)))
      (when (> size most) (error "%s is too large" (file-name-nondirectory path)))
      (with-temp-buffer
        (set-buffer-multibyte nil)
        (insert-file-contents-literally path nil 0 size)
        (buffer-string)))))

(defun rls--write (path data)
  "Writes a file so that whoever reads it sees the old one or the new one.
It is made under a name that nobody can know before, and a link at PATH is
replaced, and not written through."
  (let ((coding-system-for-write 'binary) (write-region-inhibit-fsync nil)
        (new (expand-file-name (format ".new-%08x%08x%08x" (random #x100000000) (random #x100000000) (random #x100000000)) (file-name-directory path))))
    (write-region data nil new nil 'silent nil 'excl)
    (condition-case fault (rename-file new path t)
      (error (delete-file new) (signal (car fault) (cdr fault))))))

(defun rls--keep-apart (folder shared)
  "Refuses a SHARED folder in which the FOLDER of the replica is.
A replica's files are its member's own: others would write over them there, and
a synchroniser would put older ones in their place."
  (when (file-in-directory-p folder shared)
    (user-error "rls: the shared folder needs to be another one, in which the folder of the replica is not")))

(defun rls--replica-p (folder)
  "Whether a replica is in FOLDER."
  (seq-some (lambda (name) (file-exists-p (expand-file-name name folder))) '("replica.gate" "replica.rls")))

(defun rls--look-for (folder)
  "Looks whether a replica is in FOLDER.
The program may have its files open, and store into them, when nobody finds them
there any more."
  (unless (file-directory-p folder) (error "There is no folder %s" folder))
  (unless (rls--replica-p folder)
    (error "There is no replica in %s; `rls new GROUP ME MEMBERS' begins one there" folder)))

(defun rls--editor-line ()
  "The first line of the file `.rls-editor' of `default-directory'."
  (if (not (rls--size ".rls-editor")) ""
    (with-temp-buffer
      (ignore-errors (insert-file-contents-literally ".rls-editor" nil 0 80))
      (buffer-substring (point-min) (line-end-position)))))

(defun rls--holder (folder)
  "Who has the replica of FOLDER open, such as \"Vim (4711)\".
The editors' plugins write that into the file `.rls-editor' there.  Nil if it
doesn't say, or if that one has ended."
  (let* ((default-directory folder) (line (rls--editor-line)))
    (and (string-match "\\`\\([0-9]+\\) \\([ -~]+\\)\\'" line)
         (let ((pid (string-to-number (match-string 1 line))) (program (match-string 2 line)))
           (and (process-attributes pid) (format "%s (%d)" program pid))))))

(defun rls--hold (folder)
  "Says that this Emacs has the replica of FOLDER open."
  (let ((default-directory folder))
    (ignore-errors (write-region (format "%d Emacs\n" (emacs-pid)) nil ".rls-editor" nil 'silent))))

(defun rls--release (folder)
  "Says no more that this Emacs has the replica of FOLDER open."
  (let ((default-directory folder))
    (when (equal (rls--editor-line) (format "%d Emacs" (emacs-pid))) (ignore-errors (delete-file ".rls-editor")))))

(provide 'rls-files)
;;; rls-files.el ends here
