;;; rls-session.el --- One running `rls session'  -*- lexical-binding: t -*-

;;; Commentary:

;; Requests are sent at once, and their replies come in order: each is handed to the function that was given with its request.
;; docs/SESSION.md describes the requests.  All of this is called in the buffer that shows the replica.

;;; Code:

(require 'rls-files)

(defconst rls--patience 2 "Seconds after which it says that it waits for the program.")
(defvar-local rls--process nil "The session.")
(defvar-local rls--version 1 "What the program speaks: 1, 2, 3 or 4.")
(defvar-local rls--telling nil "Whether replies tell changes.")
(defvar-local rls--given 0 "Bytes that the session was given since it stored.")
(defvar-local rls--put 0 "Bytes of text that were put in since the last look; nil if nobody knows.")
(defvar-local rls--waiting nil
  "A request without a reply after the other.
Each is its first character, and what handles its reply.")
(defvar-local rls--waiting-end nil "The last cell of `rls--waiting'.")
(defvar-local rls--failed nil "Why nothing more is done with this buffer.")
(defvar-local rls--fault nil "What is wrong, until all is stored.")
(defvar-local rls--heard 0 "When the session answered last, or was asked when it had answered all.")
(defvar-local rls--begun nil "Whether the session has answered anything.")
(defvar-local rls--opening nil "Whether the replica is being opened.")

(defun rls--begin (program folder)
  "Begins a session of PROGRAM in FOLDER."
  (let* ((default-directory folder) (process-connection-type nil) (errors (generate-new-buffer " *rls-errors*" t)))
    ;; When Emacs ends it sends this signal to its processes, and a session stores at the end of its input.
    (setq rls--process (make-process :name "rls" :buffer (generate-new-buffer " *rls*" t)
                                     :command (list "sh" "-c" "trap '' HUP; exec \"$0\" session" program)
                                     :coding 'binary :noquery t :sentinel #'ignore :filter #'rls--filter :stderr errors)
          rls--given 0 rls--waiting nil rls--telling nil rls--begun nil)
    (process-put rls--process 'errors errors)
    (process-put rls--process 'owner (current-buffer))
    (process-put rls--process 'came 0)
    (set-process-query-on-exit-flag (get-buffer-process errors) nil)
    (set-process-sentinel (get-buffer-process errors) #'ignore)
    (with-current-buffer (process-buffer rls--process) (set-buffer-multibyte nil))
    (let ((newest 2))
      (dolist (version '(3 4))
        (rls--send-request (format "v %d" version) nil
                           (lambda (reply &rest _) (when (equal reply (format "version %d" version)) (setq newest version)))))
      (setq rls--telling (and (equal (rls--ask "v") "version 2") (equal (rls--ask "c 1") "telling 1"))
            rls--version (if rls--telling newest 1)))))

(defun rls--filter (process output)
  "Keeps OUTPUT of PROCESS, and hands on what is whole."
  (when (buffer-live-p (process-buffer process))
    (with-current-buffer (process-buffer process)
      (goto-char (point-max))
      (insert output))
    (process-put process 'came (+ (process-get process 'came) (length output)))
    (let ((owner (process-get process 'owner)))
      (when (buffer-live-p owner)
        (with-current-buffer owner
          (when (eq process rls--process) (rls--pump)))))))

(defun rls--fail (fault)
  "Remembers that nothing more is done with this buffer, which keeps what it shows."
  (unless rls--failed
    (setq rls--failed fault rls--fault (concat "NOT stored: " (replace-regexp-in-string "\\`rls: " "" fault)))
    (set-buffer-modified-p t)
    (message "rls: %s" rls--fault)
    (force-mode-line-update)))

(defun rls--pump ()
  "Hands on the replies that have come."
  (let (found)
    (while (and rls--waiting (setq found (rls--parse (caar rls--waiting) rls--telling)))
      (let ((handler (cdr (pop rls--waiting))))
        (setq rls--heard (float-time) rls--begun t)
        (condition-case fault (save-match-data (apply handler found))
          (error (rls--fail (error-message-string fault))))))))

(defun rls--whole-line ()
  "The line at point, behind which point goes; nil if it hasn't come whole."
  (let ((from (point)))
    (when (search-forward "\n" nil t) (buffer-substring from (1- (point))))))

(defun rls--parse (kind telling)
  "The whole reply to a request of KIND, taken out of what came; nil if not whole.
It is a list: the first line, the bytes after it, and the lines of changes if
the session is TELLING them."
  (save-match-data
    (with-current-buffer (process-buffer rls--process)
      (goto-char (point-min))
      (let* ((reply (rls--whole-line)) (is-whole reply) bytes changes)
        (cond
         ((not reply))
         ((string-match "\\`\\(?:text\\|message\\|stat\\) \\([0-9]+\\)\\'" reply)
          (let ((end (+ (point) (string-to-number (match-string 1 reply)))))
            (if (>= end (point-max)) (setq is-whole nil)
              (setq bytes (buffer-substring (point) end))
              (goto-char (1+ end)))))
         ((and telling (memq kind (append "idbruzym" nil)) (not (equal reply "bad")))
          (let* ((told (rls--whole-line)) (count (if told (rls--number told "changes") 0)))
            (setq is-whole told)
            (while (and is-whole (> count 0))
              (setq is-whole (rls--whole-line) count (1- count))
              (push is-whole changes)))))
        (when is-whole
          (delete-region (point-min) (point))
          (list reply bytes (nreverse changes)))))))

(defun rls--send-request (request data handler)
  "Sends REQUEST with the bytes DATA; HANDLER gets what `rls--parse' answers."
  (unless (and rls--process (process-live-p rls--process)) (error "rls: the session has ended"))
  (when (eq (process-status rls--process) 'stop) (error "rls: the program was stopped"))
  (unless rls--waiting (setq rls--heard (float-time)))
  (let ((sent (concat (encode-coding-string request 'utf-8-unix) "\n" data)))
    (setq rls--given (+ rls--given (length sent)))
    (pcase (aref request 0)
      ((or ?e ?i) (when rls--put (setq rls--put (+ rls--put (length sent)))))
      ((or ?u ?z ?y) (setq rls--put nil)))
    (let ((entry (list (cons (aref request 0) handler))))
      (if rls--waiting (setcdr rls--waiting-end entry) (setq rls--waiting entry))
      (setq rls--waiting-end entry))
    (process-send-string rls--process sent)))

(defun rls--ask-all (request &optional data)
  "The whole reply to REQUEST, with the bytes DATA that belong to it."
  (let (answer)
    (rls--send-request request data (lambda (&rest reply) (setq answer reply)))
    (rls--wait (lambda () answer))
    answer))

(defun rls--ask (request &optional data)
  "The first line of the reply to REQUEST, with the bytes DATA that belong to it."
  (car (rls--ask-all request data)))

(defun rls--drain ()
  "Waits until each request has its reply."
  (rls--wait (lambda () (null rls--waiting)))
  (unless (process-live-p rls--process) (error "rls: the session ended: %s" (rls--errors rls--process))))

(defun rls--more (process seconds)
  "Waits for output of PROCESS.
Nil if it has ended: then Emacs may answer at once, and for ever, that more
came, and while its terminal goes it doesn't notice that a process is dead."
  (let* ((before (process-get process 'came)) (came (accept-process-output process seconds nil 1)))
    (or (/= before (process-get process 'came)) (and (not came) (process-live-p process)))))

(defun rls--wait (test)
  "Waits until TEST answers something.
It waits as long as the program works: that may wait for another command in the
folder, and `keyboard-quit' ends it.  A timer may run meanwhile: `rls--tick'
asks nothing then."
  (let ((process rls--process) (begun (float-time)) told)
    (unless process (error "rls: the session has ended"))
    (while (not (funcall test))
      (when rls--failed (error "%s" rls--failed))
      (unless (or (rls--more process 0.5) (funcall test)) (error "rls: the session ended: %s" (rls--errors process)))
      (when (> (- (float-time) begun) rls--patience)
        (setq told t)
        (message "%s" (rls--waits-for process))
        (when (and rls--opening (rls--locked-p process) (eq ?r (read-event nil nil 0.01))) (throw 'rls-read nil))))
    (when told (message nil))))

(defun rls--waits ()
  "How many seconds a reply is waited for."
  (if rls--waiting (floor (- (float-time) rls--heard)) 0))

(defun rls--locked-p (process)
  "Whether the launcher has said that PROCESS waits for another one in the folder."
  (and (not rls--begun) (string-search "waiting for it" (rls--errors process))))

(defun rls--waits-for (process)
  "What PROCESS is waited for."
  (if (not (rls--locked-p process)) "rls: waiting for the program; C-g gives up"
    (format "rls: waiting for %s in this folder. C-g gives up%s" (or (rls--holder default-directory) "the program")
            (if rls--opening ", r shows the text" ""))))

(defun rls--errors (process)
  "What PROCESS has written to standard error."
  (let ((errors (process-get process 'errors)))
    (when (get-buffer-process errors) (accept-process-output (get-buffer-process errors) 0.05 nil 1))
    (with-current-buffer errors (string-trim (buffer-string)))))

(defun rls--end-process ()
  "Waits until the session has ended, and removes what it left."
  (let ((process rls--process) (end (1+ (float-time))))
    (while (and (< (float-time) end) (rls--more process 0.1)))
    (setq rls--process nil)
    (kill-buffer (process-get process 'errors))
    (kill-buffer (process-buffer process))))

(defun rls--kill ()
  "Ends the session at once."
  (let ((process rls--process))
    (ignore-errors (kill-process process))
    (setq rls--process nil)
    (kill-buffer (process-get process 'errors))
    (kill-buffer (process-buffer process))))

(defun rls--end-badly ()
  "Ends a session with which something is wrong.
At the end of its input it stores, and then the folder is free; one that does
nothing for three seconds is killed."
  (when rls--process
    (when (process-live-p rls--process) (ignore-errors (process-send-eof rls--process)))
    (let ((process rls--process) (end (+ 3 (float-time))))
      (while (and (< (float-time) end) (process-live-p process)) (accept-process-output process 0.1 nil 1))
      (rls--kill))))

(defun rls--number (reply word)
  "The number after WORD in REPLY; any other reply is an error."
  (if (string-match (concat "\\`" word " \\([0-9]+\\)") reply)
      (string-to-number (match-string 1 reply))
    (error "rls: %s" reply)))

(provide 'rls-session)
;;; rls-session.el ends here
