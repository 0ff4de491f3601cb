;;; run.el --- Prints the replacements of the plugin for Emacs  -*- lexical-binding: t -*-
;;; Commentary:
;; For each case of cases.json one line of JSON.  This JSON knows no character 0: here it is U+FDD0, which no case has.
;;; Code:
(add-to-list 'load-path (expand-file-name "../emacs" (file-name-directory load-file-name)))
(require 'rls-compare)
(let ((coding-system-for-write 'utf-8-unix))
  (with-temp-buffer
    (let ((coding-system-for-read 'utf-8-unix)) (insert-file-contents (expand-file-name "cases.json" (file-name-directory load-file-name))))
    (while (search-forward "\\u0000" nil t) (replace-match "\ufdd0" t t))
    (goto-char (point-min))
    (mapc (lambda (x)
            (let ((found (rls-compare (subst-char-in-string #xfdd0 0 (gethash "old" x)) (subst-char-in-string #xfdd0 0 (gethash "new" x)))))
              (princ (replace-regexp-in-string
                      "\ufdd0" "\\u0000"
                      (decode-coding-string
                       (json-serialize (vconcat (mapcar (lambda (y) (vector (nth 0 y) (nth 1 y) (subst-char-in-string 0 #xfdd0 (nth 2 y)))) (reverse found))))
                       'utf-8)
                      t t)))
            (terpri))
          (json-parse-buffer))))
;;; run.el ends here
