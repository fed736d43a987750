; The pedal bench as a CLIPS rule.
(deftemplate pedal (slot down) (slot was))
(deftemplate stage (slot pos))
(defglobal ?*keep* = -)

(defrule press
  (pedal (down true) (was ~true))
  (stage (pos ?pos&~nil))
  =>
  (bind ?*keep* ?pos))

(deffunction main ()
  (open "decimal.txt" in "r")
  (readline in)
  (printout t "by n k.keep" crlf)
  (bind ?down nil) (bind ?pos nil)
  (bind ?pedal (assert (pedal (down nil) (was nil))))
  (bind ?stage (assert (stage (pos nil))))
  (bind ?line (readline in))
  (while (neq ?line EOF) do
    (bind ?fields (explode$ ?line))
    (bind ?by (nth$ 1 ?fields))
    (bind ?n (nth$ 2 ?fields))
    (bind ?said (judged ?by ?n ?line))
    (switch ?said
      (case new then
        (bind ?was ?down)
        (if (neq (nth$ 3 ?fields) -) then (bind ?down (nth$ 3 ?fields)))
        (if (neq (nth$ 4 ?fields) -) then (bind ?pos (nth$ 4 ?fields)))
        (retract ?pedal ?stage)
        (bind ?pedal (assert (pedal (down ?down) (was ?was))))
        (bind ?stage (assert (stage (pos ?pos))))
        (bind ?*keep* -)
        (run)
        (keep ?by ?n ?line ?*keep*)
        (printout t ?by " " ?n " " ?*keep* crlf))
      (case resent then (printout t ?by " " ?n " " (nth$ 1 (kept ?by)) crlf))
      (default (printout t ?said crlf)))
    (bind ?line (readline in))))
