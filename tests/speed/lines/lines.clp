; The known senders, and of each its last number, its last line, and the actions that this line fired.
(defglobal ?*senders* = (create$) ?*kept* = (create$))

; A letter, then letters, digits or `_`, 24 at most.
(deffunction is-name (?name)
  (bind ?letters "abcdefghijklmnopqrstuvwxyzABCDEFGHIJKLMNOPQRSTUVWXYZ")
  (bind ?others (str-cat ?letters "0123456789_"))
  (if (or (> (str-length ?name) 24) (not (str-index (sub-string 1 1 ?name) ?letters))) then (return FALSE))
  (loop-for-count (?i 2 (str-length ?name)) do
    (if (not (str-index (sub-string ?i ?i ?name) ?others)) then (return FALSE)))
  TRUE)

; How much is kept of each sender, and where that of the one at a place begins.
(deffunction width ()
  (div (length$ ?*kept*) (length$ ?*senders*)))
(deffunction from (?place)
  (+ 1 (* (- ?place 1) (width))))

; What is said to a line: `new`, `resent`, or a refusal.
(deffunction judged (?by ?n ?line)
  (bind ?place (member$ ?by ?*senders*))
  (if (not ?place) then
    (if (not (is-name (str-cat ?by))) then (return "refused 43"))
    (if (= (length$ ?*senders*) 8) then (return "refused 42"))
    (return (if (= ?n 1) then new else "refused 24")))
  (bind ?from (from ?place))
  (bind ?last (nth$ ?from ?*kept*))
  (if (= ?n (+ ?last 1)) then (return new))
  (if (<> ?n ?last) then (return "refused 24"))
  (if (eq ?line (nth$ (+ ?from 1) ?*kept*)) then resent else "refused 25"))

(deffunction keep (?by ?n ?line $?fired)
  (bind ?place (member$ ?by ?*senders*))
  (if ?place
    then
      (bind ?from (from ?place))
      (bind ?*kept* (replace$ ?*kept* ?from (+ ?from 1 (length$ ?fired)) ?n ?line ?fired))
    else
      (bind ?*senders* (create$ ?*senders* ?by))
      (bind ?*kept* (create$ ?*kept* ?n ?line ?fired))))

(deffunction kept (?by)
  (bind ?from (from (member$ ?by ?*senders*)))
  (subseq$ ?*kept* (+ ?from 2) (+ ?from (width) -1)))

; What the usual and the heavy bench share besides: readings by line, reals as decimals, `nil` for unset, the earliest write to a cell stands.
(defglobal ?*row* = (create$) ?*by* = (create$) ?*blank* = (create$) ?*ends* = (create$))

(deffunction cells (?count)
  (bind ?blank (create$)) (bind ?ends (create$))
  (loop-for-count ?count do (bind ?blank (create$ ?blank -)) (bind ?ends (create$ ?ends 32768)))
  (bind ?*blank* ?blank) (bind ?*ends* ?ends))

; Rules fire in an order of their own, so a write says where it stands: by rule and choice, below 64 * 512, which is for no write yet.
(deffunction write-cell (?cell ?by ?value)
  (if (< ?by (nth$ ?cell ?*by*)) then
    (bind ?*by* (replace$ ?*by* ?cell ?cell ?by))
    (bind ?*row* (replace$ ?*row* ?cell ?cell ?value))))

(deffunction taken (?old ?reading)
  (if (eq ?reading -) then ?old else ?reading))

(deffunction fired (?cell)
  (bind ?value (nth$ ?cell ?*row*))
  (if (eq ?value -) then nil else ?value))

(deffunction print-row (?by ?n $?row)
  (printout t ?by " " ?n)
  (progn$ (?value ?row)
    (if (floatp ?value) then (format t " %.17g" ?value) else (printout t " " ?value)))
  (printout t crlf))

; Each bench says what a line does to its facts.
(deffunction take-line (?fields))

(deffunction run-lines ()
  (readline in)
  (bind ?line (readline in))
  (while (neq ?line EOF) do
    (bind ?fields (explode$ ?line))
    (bind ?by (nth$ 1 ?fields))
    (bind ?n (nth$ 2 ?fields))
    (bind ?said (judged ?by ?n ?line))
    (switch ?said
      (case new then
        (take-line (subseq$ ?fields 3 (length$ ?fields)))
        (bind ?*row* ?*blank*)
        (bind ?*by* ?*ends*)
        (run)
        (keep ?by ?n ?line ?*row*)
        (print-row ?by ?n ?*row*))
      (case resent then (print-row ?by ?n (kept ?by)))
      (default (printout t ?said crlf)))
    (bind ?line (readline in))))
