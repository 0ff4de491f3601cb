;;; rls-compare.el --- Where two texts differ  -*- lexical-binding: t -*-

;;; Commentary:

;; What differs in two texts, so that what others write in between keeps its place: examples/COMPARE.md.  Places count characters from 0.

;;; Code:

(require 'cl-lib)

(defconst rls-compare--mark "\u0300-\u036f\u1ab0-\u1aff\u1dc0-\u1dff\u200c\u200d\u20d0-\u20ff\ufe00-\ufe0f\ufe20-\ufe2f\U0001f3fb-\U0001f3ff")
(defconst rls-compare--token
  (let ((letter "0-9A-Za-z_\u00aa\u00b5\u00ba\u00c0-\u00d6\u00d8-\u00f6\u00f8-\u0dff\u10a0-\u1fff"))
    (concat "[" letter "][" letter rls-compare--mark "]*\\|[^\t-\r ]\\(?:\u200d[^\t-\r ]\\|[" rls-compare--mark "]\\)*")))

(defvar rls-compare--spent 0 "Steps of the search.")
(defvar rls-compare--cut nil "Whether it went on by cheaper means.")
(defvar rls-compare--late 0 "When it goes on line by line.")
(defvar rls-compare--joins nil
  "Whether two texts are put together.
Then they are compared by words alone, since of words that went from one line to
the next both would stay.")
(defvar rls-compare-was-coarse nil "Whether the last comparison went on by cheaper means.")
(defcustom rls-compare-seconds 15
  "Seconds of comparing what one command changed.
After that it goes on line by line."
  :type 'number :group 'rls)
(defvar rls-compare--old)
(defvar rls-compare--new)
(defvar rls-compare--at)
(defvar rls-compare--low)
(defvar rls-compare--high)
(defvar rls-compare--to)
(defvar rls-compare--found)

(defsubst rls-compare--space-p (c) (or (= c 32) (<= 9 c 13)))

(defun rls-compare--joined-p (text at)
  "Whether the character AT a place of TEXT belongs to the one before it."
  (and (< 0 at (length text))
       (let ((c (aref text at)))
         (or (eq (aref text (1- at)) #x200d)
             (and (>= c #x300)
                  (or (<= c #x36f) (<= #x1ab0 c #x1aff) (<= #x1dc0 c #x1dff) (<= #x200c c #x200d) (<= #x20d0 c #x20ff)
                      (<= #xfe00 c #xfe0f) (<= #xfe20 c #xfe2f) (<= #x1f3fb c #x1f3ff)))))))

(defun rls-compare--anchors (a b i m j n size)
  "Where SIZE members in a row are equal that are once in each, the last first.
They rise in both."
  (let* ((key (if (= size 1) (lambda (list k) (aref list k))
                (lambda (list k) (list (aref list k) (aref list (+ k 1)) (aref list (+ k 2)) (aref list (+ k 3))))))
         (once (lambda (list from to)
                 (let ((table (make-hash-table :test (if (= size 1) 'eql 'equal))))
                   (cl-loop for k from from to (- to size) for x = (funcall key list k)
                            do (puthash x (if (gethash x table) -1 k) table))
                   table)))
         (mine (funcall once a i m)) (other (funcall once b j n))
         (most (max 1 (- m i))) (tops (make-vector (1+ most) 0)) (at (make-vector (1+ most) nil)) (count 0))
    ;; `at' has chains of pairs, the last first.
    (cl-loop for k from i to (- m size) for x = (funcall key a k)
             for y = (gethash x other -1)
             when (and (>= y 0) (= (gethash x mine) k))
             do (let ((low 1) (high (1+ count)))
                  (while (< low high)
                    (let ((middle (/ (+ low high) 2)))
                      (if (< (aref tops middle) y) (setq low (1+ middle)) (setq high middle))))
                  (aset tops low y)
                  (aset at low (cons (cons k y) (and (> low 1) (aref at (1- low)))))
                  (when (> low count) (setq count low))))
    (aref at count)))

(defsubst rls-compare--comes-p (was base k d)
  (or (= k (- d)) (and (/= k d) (< (aref was (+ base k -1)) (aref was (+ base k 1))))))

(defun rls-compare--search (a b i m j n steps)
  "Myers' greedy search.
After STEPS members that go or come it is the way that got furthest.  The
answer is whether it arrived, and the runs that stay."
  (let* ((wide (- m i)) (high (- n j)) (off (1+ steps)) (far (make-vector (+ 3 (* 2 steps)) 0)) (trace nil)
         (x 0) (y 0) (d 0) (done nil) (runs nil) (going t))
    (while going
      (push (cl-subseq far (- off d 1) (+ off d 2)) trace)
      (let ((k (- d)))
        (while (and (<= k d) (not done))
          (setq x (if (rls-compare--comes-p far off k d) (aref far (+ off k 1)) (1+ (aref far (+ off k -1)))) y (- x k))
          (while (and (< x wide) (< y high) (eq (aref a (+ i x)) (aref b (+ j y)))) (setq x (1+ x) y (1+ y)))
          (aset far (+ off k) x)
          (setq done (and (>= x wide) (>= y high)) k (+ k 2))))
      (setq rls-compare--spent (+ rls-compare--spent d 1))
      (if (or done (= d steps)) (setq going nil) (setq d (1+ d))))
    (unless done
      (let ((best -1))
        (cl-loop for k from (- steps) to steps by 2 for to = (aref far (+ off k))
                 when (and (<= to wide) (<= (- to k) high) (> (- (* 2 to) k) best))
                 do (setq best (- (* 2 to) k) x to y (- to k)))))
    (while (> d 0)
      (let* ((was (pop trace)) (k (- x y)) (comes (rls-compare--comes-p was (1+ d) k d)) (before (if comes (1+ k) (1- k)))
             (p (aref was (+ d 1 before))) (start (if comes p (1+ p))))
        (when (> x start) (push (list (+ i start) (- (+ j start) k) (- x start)) runs))
        (setq x p y (- p before) d (1- d))))
    (when (> x 0) (push (list i j x) runs))
    (cons done runs)))

(defun rls-compare--runs (a b by-anchors)
  "Which members of the vectors A and B stay, as runs (place place count)."
  (let ((found nil) (todo (list (list 0 (length a) 0 (length b) 0))))
    (while todo
      (cl-destructuring-bind (i m j n depth) (pop todo)
        (if (< depth 0) (push (list i j (- m i)) found)
          (let ((k i) (kept nil) (anchors nil))
            (while (and (< i m) (< j n) (eq (aref a i) (aref b j))) (setq i (1+ i) j (1+ j)))
            (when (> i k) (push (list k (+ (- j i) k) (- i k)) found))
            (setq k m)
            (while (and (> m i) (> n j) (eq (aref a (1- m)) (aref b (1- n)))) (setq m (1- m) n (1- n)))
            (when (> k m) (push (list m k n (+ n (- k m)) -1) todo))
            (cond ((or (= i m) (= j n)))
                  ((and (not by-anchors) (car (setq kept (rls-compare--search a b i m j n 16))))
                   (dolist (run (cdr kept)) (push run found)))
                  ((and (< depth 12)
                        (setq anchors (or (and (not by-anchors) (rls-compare--anchors a b i m j n 4)) (rls-compare--anchors a b i m j n 1))))
                   (let ((p m) (q n))
                     (dolist (anchor anchors)
                       (push (list (car anchor) p (cdr anchor) q (1+ depth)) todo)
                       (setq p (car anchor) q (cdr anchor)))
                     (push (list i p j q (1+ depth)) todo)))
                  (t
                   (while (and (< i m) (< j n))
                     (setq kept (rls-compare--search a b i m j n (cond ((< rls-compare--spent 300000) 128) ((< rls-compare--spent 1500000) 16) (t 4))))
                     (if (car kept)
                         (progn (dolist (run (cdr kept)) (push run found)) (setq i m))
                       (setq rls-compare--cut t)
                       (let* ((runs (reverse (cdr kept))) (good (cl-member-if (lambda (run) (>= (nth 2 run) 3)) runs))
                              (reach (lambda (run) (- (+ (nth 0 run) (nth 1 run) (* 2 (nth 2 run))) i j))))
                         ;; What it ends with may be chance.
                         (when (and good (> (* 2 (funcall reach (car good))) (funcall reach (car runs)))) (setq runs good))
                         (dolist (run (reverse runs)) (push run found))
                         (if runs (setq i (+ (nth 0 (car runs)) (nth 2 (car runs))) j (+ (nth 1 (car runs)) (nth 2 (car runs))))
                           (setq i (1+ i) j (1+ j)))))))))))) 
    (nreverse found)))

(defun rls-compare--align (old new by-anchors)
  "Which members of the vectors OLD and NEW stay, as pairs of places.
What the other one doesn't have is left out first."
  (let ((numbers (make-hash-table :test 'equal)) (olds (make-hash-table :test 'equal)) (pairs nil) a b from to)
    (dotimes (k (length new)) (puthash (aref new k) k numbers))
    (dotimes (k (length old)) (puthash (aref old k) t olds))
    (dotimes (k (length old)) (let ((x (gethash (aref old k) numbers))) (when x (push x a) (push k from))))
    (dotimes (k (length new)) (when (gethash (aref new k) olds) (push (gethash (aref new k) numbers) b) (push k to)))
    (setq a (vconcat (nreverse a)) b (vconcat (nreverse b)) from (vconcat (nreverse from)) to (vconcat (nreverse to)))
    (dolist (run (rls-compare--runs a b by-anchors))
      (dotimes (k (nth 2 run)) (push (cons (aref from (+ k (nth 0 run))) (aref to (+ k (nth 1 run)))) pairs)))
    (nreverse pairs)))

(defun rls-compare--word-p (text from end)
  (let ((at (string-match "[^\t-\r ]" text from))) (and at (< at end))))

(defun rls-compare--loses-line-p (gone come)
  "Whether a line feed of GONE stands after its last word, and COME has none."
  (and (string-match-p "\n[\t-\r ]*\\'" gone) (not (string-search "\n" come))))

(defun rls-compare--put (a m b n)
  "What goes and what comes from A to M and from B to N.
White space that is left between two words keeps its last character, or gets a
new one behind all of it."
  (let* ((old rls-compare--old) (new rls-compare--new) (blank (not (rls-compare--word-p old a m))))
    (cond ((or (= a 0) (= a m) (= m (length old)) (= b n) (rls-compare--word-p new b n)) (rls-compare--replace a m b n))
          ((or (rls-compare--loses-line-p (substring old a m) (substring new b n)) (and blank (/= (aref old (1- m)) (aref new (1- n)))))
           (while (and blank (< a m) (< b (1- n)) (eq (aref old a) (aref new b))) (setq a (1+ a) b (1+ b)))
           (push (list a (- m a) (substring new b n)) rls-compare--found))
          (blank (rls-compare--replace a (1- m) b (1- n)))
          (t (rls-compare--replace a m b n)))))

(defun rls-compare--replace (a m b n)
  "What goes and what comes, less what is equal at the front and at the end."
  (let ((old rls-compare--old) (new rls-compare--new) (p a) (q b) (s m))
    (while (and (< p m) (< q n) (eq (aref old p) (aref new q))) (setq p (1+ p) q (1+ q)))
    (when (or (< p m) (< q n))
      (while (and (> p a) (or (rls-compare--joined-p old p) (rls-compare--joined-p new q))) (setq p (1- p) q (1- q))))
    (while (and (> s p) (> n q) (eq (aref old (1- s)) (aref new (1- n)))) (setq s (1- s) n (1- n)))
    (while (and (< s m) (or (rls-compare--joined-p old s) (rls-compare--joined-p new n))) (setq s (1+ s) n (1+ n)))
    (when (or (> s p) (> n q)) (rls-compare--place p s q n))))

(defconst rls-compare--back 1000 "Characters back for which a better place is looked for.")

(defun rls-compare--place (p s q n)
  "What goes and what comes from P to S and from Q to N.
Where one of them is nothing, it may have several places, and one that isn't
within a word is taken."
  (let* ((old rls-compare--old) (new rls-compare--new) (comes (= p s)) (side (if comes new old)) (end (if comes n s)) (back 0) (k 0)
         (last (car rls-compare--found)) (least (if last (+ (nth 0 last) (nth 1 last)) 0)))
    (when (or comes (= q n))
      (let ((within (rls-compare--within-word-p p s q n)))
        (while (and within (< k rls-compare--back) (> (- p k) least) (eq (aref old (- p k 1)) (aref side (- end k 1))))
          (setq k (1+ k) within (rls-compare--within-word-p (- p k) (- s k) (- q k) (- n k))))
        (unless within (setq back k))))
    (push (list (- p back) (- s p) (substring new (- q back) (- n back))) rls-compare--found)))

(defun rls-compare--within-word-p (p s q n)
  "Whether the place from P to S, and from Q to N, is within a word.
Or it is between a character and what belongs to it."
  (let ((old rls-compare--old) (new rls-compare--new))
    (or (rls-compare--joined-p old p) (rls-compare--joined-p old s) (rls-compare--joined-p new q) (rls-compare--joined-p new n)
        (and (> p 0) (< s (length old)) (not (rls-compare--space-p (aref old (1- p)))) (not (rls-compare--space-p (aref old s)))))))

(defun rls-compare--parts (regexp text)
  (let ((at 0) (found nil))
    (while (and (< at (length text)) (string-match regexp text at))
      (push (match-string 0 text) found)
      (setq at (match-end 0)))
    (nreverse found)))

(defun rls-compare--lines (text) (rls-compare--parts "[^\n]*\n\\|[^\n]+" text))

(defun rls-compare--in-proportion (a old b new parts put)
  "Hands PARTS of the lists OLD and NEW to PUT, one with one.
They begin at A and B."
  (let ((i 0) (j 0) (olds (length old)) (news (length new)))
    (cl-loop for k from 1 to parts
             do (let ((m a) (n b) (p (/ (* k olds) parts)) (q (/ (* k news) parts)))
                  (while (< i p) (setq m (+ m (length (pop old))) i (1+ i)))
                  (while (< j q) (setq n (+ n (length (pop new))) j (1+ j)))
                  (funcall put a m b n)
                  (setq a m b n)))))

(defun rls-compare--pair-words (a m b n)
  (let* ((regexp "[\t-\r ]+\\|[^\t-\r ]+") (old (rls-compare--parts regexp (substring rls-compare--old a m)))
         (new (rls-compare--parts regexp (substring rls-compare--new b n))) (olds (length old)) (news (length new)))
    (rls-compare--in-proportion a old b new (if (= olds news) olds (max 1 (/ (min olds news) 16))) #'rls-compare--put)))

(defun rls-compare--pair (a m b n)
  "What has nothing in common from A to M and from B to N.
Line goes with line, and word with word where there are as many; otherwise in
proportion."
  (let ((gone (substring rls-compare--old a m)) (come (substring rls-compare--new b n)))
    (if (not (and (string-match-p "[^\t-\r ]" gone) (string-match-p "[^\t-\r ]" come)))
        (apply #'rls-compare--put (rls-compare--with-spaces-beside a m b n))
      (let ((old (rls-compare--lines gone)) (new (rls-compare--lines come)))
        (rls-compare--in-proportion a old b new (min (length old) (length new)) #'rls-compare--pair-words)))))

(defun rls-compare--with-spaces-beside (a m b n)
  "The piece from A to M and from B to N, with white space beside it that stays.
That is so if only white space goes, or a line feed, and no word comes."
  (let* ((old rls-compare--old) (new rls-compare--new) (blank (not (rls-compare--word-p old a m))) (p a) (s m))
    (if (or (= a m) (rls-compare--word-p new b n) (not (or blank (string-search "\n" (substring old a m))))) (list a m b n)
      (while (and (> p rls-compare--low) (rls-compare--space-p (aref old (1- p)))) (setq p (1- p)))
      (while (and (< s rls-compare--high) (rls-compare--space-p (aref old s))) (setq s (1+ s)))
      (let ((q (+ (- b a) p)) (e (+ (- n m) s)))
        (if (or blank (rls-compare--loses-line-p (substring old p s) (substring new q e))) (list p s q e) (list a m b n))))))

(defun rls-compare--stays (a b count)
  "COUNT characters stay from A and B; what is before them is done now.
White space between white space that differs is a part of that."
  (let ((at rls-compare--at) (to rls-compare--to))
    (unless (and (= (- a at) (- b to)) (eq t (compare-strings rls-compare--old at a rls-compare--new to b)))
      (if (and (> count 0) (not (rls-compare--word-p rls-compare--old at (+ a count))) (not (rls-compare--word-p rls-compare--new to b)))
          (setq count nil)
        (setq rls-compare--high (+ a count))
        (rls-compare--pair at a to b)
        (setq rls-compare--low a)))
    (when count (setq rls-compare--at (+ a count) rls-compare--to (+ b count)))))

(defun rls-compare--same-but-spaces (a old b new)
  (if (equal old new) (rls-compare--stays a b (length old))
    (let ((p 0) (q 0) (size 1))
      (while (> size 0)
        (while (and (< p (length old)) (rls-compare--space-p (aref old p))) (setq p (1+ p)))
        (while (and (< q (length new)) (rls-compare--space-p (aref new q))) (setq q (1+ q)))
        (setq size (min (- (or (string-match "[\t-\r ]" old p) (length old)) p) (- (or (string-match "[\t-\r ]" new q) (length new)) q)))
        (when (> size 0)
          (rls-compare--stays (+ a p) (+ b q) size)
          (setq p (+ p size) q (+ q size)))))))

(defun rls-compare--front (old new)
  (let ((x (compare-strings old nil nil new nil nil))) (if (eq x t) (length old) (1- (abs x)))))

(defun rls-compare--tokens (text from)
  (let ((found nil) (at from))
    (while (string-match rls-compare--token text at)
      (push (cons (match-beginning 0) (match-string 0 text)) found)
      (setq at (match-end 0)))
    (vconcat (nreverse found))))

(defun rls-compare--words (a gone b come)
  "Lines that aren't the same: by words, whatever is between them."
  (let ((front (rls-compare--front gone come)))
    (while (and (> front 0) (not (rls-compare--space-p (aref gone (1- front))))) (setq front (1- front)))
    (rls-compare--stays a b front)
    (let ((old (rls-compare--tokens gone front)) (new (rls-compare--tokens come front)))
      (unless (or (equal old []) (equal new []))
        (let ((pairs (rls-compare--align (cl-map 'vector #'cdr old) (cl-map 'vector #'cdr new) nil))
              (size (lambda (side) (let ((n 0)) (mapc (lambda (x) (setq n (+ n (length (cdr x))))) side) n))) (same 0))
          (dolist (pair pairs) (setq same (+ same (length (cdr (aref old (car pair)))))))
          (unless (and (not rls-compare--joins) (< (* 5 same) (min (funcall size old) (funcall size new))))
            (dolist (pair pairs)
              (let ((x (aref old (car pair))))
                (rls-compare--stays (+ a (car x)) (+ b (car (aref new (cdr pair)))) (length (cdr x)))))))))))

(defun rls-compare--stripped (text) (string-trim text "[\t-\r ]+" "[\t-\r ]+"))

(defun rls-compare--line-by-line-p (old new)
  "Whether three of four lines of OLD and NEW (of 32) begin and end alike.
They do so for half of the shorter."
  (let* ((old (vconcat old)) (new (vconcat new)) (looks (min (length old) 32)) (alike 0))
    (dotimes (k looks)
      (let* ((at (/ (* k (length old)) looks)) (x (rls-compare--stripped (aref old at))) (y (rls-compare--stripped (aref new at)))
             (front (rls-compare--front x y))
             (end (rls-compare--front (reverse (substring x front)) (reverse (substring y front)))))
        (when (>= (* 2 (+ front end)) (min (length x) (length y))) (setq alike (1+ alike)))))
    (>= (* 4 alike) (* 3 looks))))

(defun rls-compare--changed-lines (a old b new)
  (let ((gone (apply #'concat old)) (come (apply #'concat new)))
    (if (equal (rls-compare--without-spaces gone) (rls-compare--without-spaces come)) (rls-compare--same-but-spaces a gone b come)
      (rls-compare--other-lines a old b new))))

(defun rls-compare--without-spaces (text) (replace-regexp-in-string "[\t-\r ]+" "" text t t))

(defun rls-compare--other-lines (a old b new)
  (unless (and (not rls-compare--joins) (= (length old) (length new)) (rls-compare--line-by-line-p old new))
    (setq old (list (apply #'concat old)) new (list (apply #'concat new))))
  (while old
    (let ((x (pop old)) (y (pop new)))
      (if (> (float-time (get-internal-run-time)) rls-compare--late) (setq rls-compare--cut t) (rls-compare--words a x b y))
      (setq a (+ a (length x)) b (+ b (length y))))))

(defun rls-compare--sizes-before (parts)
  (let ((size 0)) (vconcat (mapcar (lambda (part) (prog1 size (setq size (+ size (length part))))) parts))))

(defun rls-compare--line-pairs (olds news)
  "Which lines stay, whose keys are OLDS and NEWS.
If white space alone differs, they do so only where as much is before them."
  (let ((pairs (rls-compare--align olds news t)))
    (if (not (equal (apply #'concat (append olds nil)) (apply #'concat (append news nil)))) pairs
      (let ((x (rls-compare--sizes-before olds)) (y (rls-compare--sizes-before news)))
        (cl-remove-if-not (lambda (pair) (= (aref x (car pair)) (aref y (cdr pair)))) pairs)))))

(defun rls-compare (old new &optional before after)
  "The replacements that make NEW of OLD, as lists (AT COUNT TEXT), the last first.
Their places are those of OLD.  The first BEFORE and the last AFTER characters
stay."
  (let* ((before (or before 0)) (after (or after 0)) (end (- (length old) after)) (new-end (- (length new) after)) (gone (substring old before end)) (come (substring new before new-end))
         (rls-compare--old old) (rls-compare--new new) (rls-compare--at before) (rls-compare--to before) (rls-compare--low 0) (rls-compare--high 0) (rls-compare--found nil)
         (rls-compare--spent 0) (rls-compare--cut nil) (rls-compare--late (+ (float-time (get-internal-run-time)) rls-compare-seconds)) (case-fold-search nil)
         (olds (rls-compare--lines gone)) (news (rls-compare--lines come))
         (key #'rls-compare--without-spaces)
         (a before) (b before) (i 0) (j 0) (last (length olds)))
    (save-match-data
      ;; Where one of them has nothing but spaces, as in a place of many that a command replaces, there is nothing to look for.
      (dolist (pair (when (and (string-match-p "[^\t-\r ]" gone) (string-match-p "[^\t-\r ]" come))
                      (append (rls-compare--line-pairs (vconcat (mapcar key olds)) (vconcat (mapcar key news))) (list (cons last (length news))))))
        (let ((p a) (q b) gone come)
          (while (< i (car pair)) (setq p (+ p (length (car olds))) i (1+ i)) (push (pop olds) gone))
          (while (< j (cdr pair)) (setq q (+ q (length (car news))) j (1+ j)) (push (pop news) come))
          (when (and gone come) (rls-compare--changed-lines a (nreverse gone) b (nreverse come)))
          (when olds
            (let ((x (pop olds)) (y (pop news)))
              (when y
                (rls-compare--same-but-spaces p x q y)
                (setq a (+ p (length x)) b (+ q (length y)) i (1+ i) j (1+ j)))))))
      (rls-compare--stays end new-end after)
      (rls-compare--stays (length old) (length new) 0))
    (setq rls-compare-was-coarse rls-compare--cut)
    rls-compare--found))

(provide 'rls-compare)
;;; rls-compare.el ends here
