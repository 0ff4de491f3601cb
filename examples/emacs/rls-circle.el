;;; rls-circle.el --- Texts that are shared by `rls share'  -*- lexical-binding: t -*-

;;; Commentary:

;; A circle is a shared folder and the machines that use it (docs/SHARING.md).  `rls where' tells which replica belongs to a file or a text of a
;; shared folder.  `rls sync FILE' brings the plain file and the replica together before Emacs opens the text, and after it has closed it.  While one
;; is open, `rls sync --tend' does in the background what others wait for, such as a number for somebody who joins, and `rls who' tells who they are.

;;; Code:

(require 'seq)
(require 'subr-x)
(require 'rls-files)
(defvar rls-program)
(defvar rls--shared)
(defvar rls--lookup-due)

(defconst rls--look-every 5 "Seconds between two looks at who asks for a number.")
(defconst rls--looks 12 "Looks after which what others wait for is done in any case.")
(defconst rls--patience-at-end 3 "Seconds that an end of Emacs waits for plain files.")
(defvar-local rls--where nil
  "What `rls where' says of the text of this buffer.
A list: the replica's folder, the shared one, the text's name, its plain file or
nil, and what this member is called.  Nil for a replica that was begun by hand.")
(defvar-local rls--last-writer nil "The member who wrote last, and when.")
(defvar rls--tended nil "What is known of the circle of each shared folder.")
(defvar rls--circle-timer nil)
(defvar rls--closing nil "Processes that write the plain files of texts that were closed.")

(defun rls--said (errors)
  "The last line of ERRORS by which the program says what is wrong."
  (let ((lines (split-string errors "\n" t)))
    (or (car (last (seq-filter (lambda (line) (string-prefix-p "rls: " line)) lines))) (car (last lines)) "")))

(defun rls--start (words done)
  "Begins the program with WORDS in the background.
DONE is called with its status, what it printed, and what was wrong.  An end of
Emacs lets it go on."
  (unless (executable-find rls-program) (user-error "rls: there is no program %s on the path (docs/INSTALL.md)" rls-program))
  (let* ((default-directory (if (file-directory-p default-directory) default-directory "/"))
         (out (generate-new-buffer " *rls-out*" t)) (errors (generate-new-buffer " *rls-errors*" t)) (process-connection-type nil)
         (pipe (make-pipe-process :name "rls-errors" :buffer errors :noquery t :sentinel #'ignore)))
    (make-process
     :name "rls" :buffer out :stderr pipe :noquery t :coding 'utf-8-unix
     :command (append (list "sh" "-c" "trap '' HUP; exec \"$@\"" "sh" rls-program) words)
     :sentinel (lambda (process _)
                 (unless (process-live-p process)
                   (while (and (process-live-p pipe) (accept-process-output pipe 0.1)))
                   (let ((printed (if (buffer-live-p out) (with-current-buffer out (buffer-string)) ""))
                         (wrong (if (buffer-live-p errors) (with-current-buffer errors (buffer-string)) "")))
                     (when (process-live-p pipe) (delete-process pipe))
                     (mapc (lambda (buffer) (when (buffer-live-p buffer) (kill-buffer buffer))) (list out errors))
                     (funcall done (process-exit-status process) printed wrong)))))))

(defun rls--run (&rest words)
  "Runs the program with WORDS, and waits for it.
Answers a list: its status, what it printed, and what was wrong."
  (let* (answer (process (rls--start words (lambda (&rest told) (setq answer told)))))
    (condition-case nil
        (while (not answer) (accept-process-output nil 0.05))
      (quit (delete-process process) (user-error "rls: given up")))
    answer))

(defun rls--why (path status errors)
  "Why `rls where' has found nothing at PATH, in words for whoever named it.
STATUS and ERRORS are what it ended with."
  (let ((line (rls--said errors)) (name (file-name-nondirectory (directory-file-name path))))
    (cond ((= status 1) (format "rls: %s has no command `where': it is older than 0.11.0, or another program of that name. M-x rls-open with the folder of a replica does without" rls-program))
          ((or (/= status 2) (not (string-search "is neither a shared folder" line))) (concat "rls: " (string-remove-prefix "rls: " line)))
          ((not (file-exists-p path)) (format "rls: there is no %s" path))
          ((file-directory-p path) (format "rls: %s is not shared. This shares it: rls share %s FILE" name path))
          (t (format "rls: %s is not shared. This shares it: rls share SHARED %s" name name)))))

(defun rls--find (path &optional name)
  "The text of a circle that PATH means, and NAME if it is a shared folder.
Where several are meant, somebody chooses.  The answer is as `rls--where'."
  (pcase-let* ((path (expand-file-name path))
               (`(,status ,printed ,errors) (apply #'rls--run "where" (directory-file-name path) (and name (list name)))))
    (unless (= status 0) (user-error "%s" (rls--why path status errors)))
    (let* ((rows (seq-filter (lambda (row) (= (length row) 5)) (mapcar (lambda (line) (split-string line "\t")) (split-string printed "\n" t))))
           (row (if (cdr rows)
                    (let* ((names (mapcar (lambda (row) (nth 2 row)) rows))
                           (chosen (completing-read (format "Text (%s): " (string-join names ", ")) names nil t)))
                      (seq-find (lambda (row) (equal chosen (nth 2 row))) rows))
                  (car rows))))
      (unless row (user-error "rls: there is no text %s in %s, or it has not come yet: `rls sync %s' fetches it" (or name "") path path))
      (list (nth 0 row) (nth 1 row) (nth 2 row) (unless (equal (nth 3 row) "-") (nth 3 row)) (nth 4 row)))))

(defun rls--bring-in (place)
  "Before the text of PLACE is opened: what was changed in its plain file goes in.
What is wrong with it is told, and the text is opened all the same."
  (when (nth 3 place)
    (pcase-let ((`(,status _ ,errors) (rls--run "sync" (nth 3 place))))
      (unless (memq status '(0 73)) (message "%s" (rls--said errors))))))

(defun rls--write-file (place)
  "After the text of PLACE was closed: its plain file is written."
  (when (nth 3 place)
    (condition-case fault
        (push (rls--start (list "sync" "--wait" "10" (nth 3 place))
                          (lambda (status _ errors) (unless (= status 0) (message "%s" (rls--said errors)))))
              rls--closing)
      (error (message "%s" (error-message-string fault))))))

(defun rls--wait-for-files ()
  "Waits for a moment until the plain files of texts that were closed are written."
  (let ((end (+ (float-time) rls--patience-at-end)))
    (while (and (setq rls--closing (seq-filter #'process-live-p rls--closing)) (< (float-time) end))
      (accept-process-output (car rls--closing) 0.05))))

;;;; What others wait for

(defun rls--buffers-of (shared)
  "The buffers that show a text of the circle in the folder SHARED."
  (seq-filter (lambda (buffer) (equal shared (nth 1 (buffer-local-value 'rls--where buffer)))) (buffer-list)))

(defun rls--known (shared what)
  "What is known of the circle in the folder SHARED: WHAT is a keyword."
  (plist-get (alist-get shared rls--tended nil nil #'equal) what))

(defun rls--know (shared &rest facts)
  "From now on FACTS, keywords and what they say, are known of SHARED."
  (let ((known (alist-get shared rls--tended nil nil #'equal)))
    (while facts (setq known (plist-put known (pop facts) (pop facts))))
    (setf (alist-get shared rls--tended nil nil #'equal) known)))

(defun rls--begin-tending (shared)
  "From now on a buffer shows a text of the circle in SHARED."
  (unless rls--circle-timer (setq rls--circle-timer (run-with-timer rls--look-every rls--look-every #'rls--look-at-circles)))
  (rls--look-at-circle shared))

(defun rls--look-at-circles ()
  "Looks at each circle of which a text is open."
  (let ((all (delete-dups (delq nil (mapcar (lambda (buffer) (nth 1 (buffer-local-value 'rls--where buffer))) (buffer-list))))))
    (mapc #'rls--look-at-circle all)
    (unless all
      (cancel-timer rls--circle-timer)
      (setq rls--circle-timer nil))))

(defun rls--look-at-circle (shared)
  "Does what others wait for in SHARED.
That is if somebody else asks than before, or a minute has passed."
  (let* ((asks (ignore-errors (directory-files shared nil "\\.ask\\'"))) (looks (or (rls--known shared :looks) 0))
         (is-due (or (zerop (% looks rls--looks)) (not (equal asks (rls--known shared :asks)))))
         (process (rls--known shared :process)))
    (rls--know shared :looks (1+ looks))
    (when (and is-due (not (and process (process-live-p process))))
      (rls--know shared :asks asks :process
                 (ignore-errors (rls--start (list "sync" "--tend" shared) (lambda (status _ errors) (rls--has-tended shared status errors))))))))

(defun rls--has-tended (shared status errors)
  "What stands in the way in SHARED is told once: who isn't safe has to know.
STATUS and ERRORS are what `rls sync --tend' ended with."
  (let ((line (when (= status 71) (rls--said errors))))
    (when (and line (not (equal line (rls--known shared :told)))) (message "%s" line))
    (rls--know shared :told line :process
               (ignore-errors (rls--start (list "who" shared) (lambda (_ printed _) (rls--has-names shared printed)))))))

(defun rls--has-names (shared printed)
  "Remembers the names of the members of SHARED, as `rls who' PRINTED them."
  (let (names)
    (dolist (line (split-string printed "\n" t))
      (when (string-match "\\` *\\([0-9]+\\) \\(.*?[^ ]\\) +\\(?:never\\|[0-9][0-9] [^ ]+ [0-9][0-9]:[0-9][0-9]\\) " line)
        (push (cons (string-to-number (match-string 1 line)) (match-string 2 line)) names)))
    (when (and names (not (equal names (rls--known shared :names))))
      (rls--know shared :names names)
      (dolist (buffer (rls--buffers-of shared)) (with-current-buffer buffer (setq rls--lookup-due t)))
      (force-mode-line-update t))))

(defun rls--name-of (member)
  "What MEMBER is called in the circle of this buffer; nil if that isn't known."
  (and rls--where (alist-get member (rls--known rls--shared :names))))

(defun rls--wrote ()
  "Who wrote last, for the mode line, if it is known what that one is called."
  (let ((name (rls--name-of (car rls--last-writer))))
    (if name (format ", %s wrote at %s" name (cdr rls--last-writer)) "")))

(provide 'rls-circle)
;;; rls-circle.el ends here
