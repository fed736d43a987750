; The usual bench as CLIPS rules. A fact for each entity has the values now and one line before; an action is seen in the line after it.
(deftemplate stage (slot step) (slot desk) (slot pos) (slot edge) (slot dir) (slot was-dir))
(deftemplate pedal (slot count) (slot was-count) (slot held) (slot was-held))
(deftemplate camera (slot desk) (slot width) (slot was-width))
(deftemplate lamp (slot id) (slot desk) (slot level) (slot switch) (slot was-switch))
(deftemplate probe (slot id) (slot desk) (slot limit) (slot temp) (slot was-temp) (slot ok) (slot was-ok) (slot alarm) (slot was-alarm))
(deftemplate log (slot steps) (slot was-steps))

(defrule ring
  (pedal (count ?c) (was-count ~?c))
  (stage (step ?step) (pos ?pos&~nil) (edge ?edge&~nil) (dir ?dir&~nil))
  (camera (width ?width))
  =>
  (bind ?steps (* (- ?pos ?edge) ?dir))
  (write-cell 14 0 ?steps)
  (write-cell 15 0 (/ (float ?steps) (float ?step)))
  (if (and (neq ?width nil) (<> ?steps 0)) then (write-cell 16 0 (/ (* ?width (float ?step)) (float ?steps)))))
(defrule turned
  (stage (dir ?dir&~nil) (was-dir ~?dir))
  =>
  (write-cell 17 0 ?dir))
(defrule snap
  (pedal (count ?c&~nil) (was-count ~?c) (held ?held) (was-held ?was-held))
  (stage (dir ?dir) (was-dir ?was-dir))
  (test (or (and (eq ?held true) (neq ?was-held true)) (neq ?dir ?was-dir)))
  =>
  (write-cell 1 0 ?c))
(defrule missing
  (log (steps 0) (was-steps ~0))
  =>
  (write-cell 18 0 true))
(defrule alarm
  (probe (id ?id) (limit ?limit) (temp ?temp&~nil) (ok false) (was-ok ~false))
  =>
  (write-cell (+ 9 ?id) 0 (- ?temp ?limit)))
(defrule switch
  (pedal (held ?held&~nil) (was-held ~?held))
  (stage (desk ?desk))
  (lamp (id ?id) (desk ?desk))
  =>
  (write-cell (* 2 ?id) 0 ?held))
(defrule drift
  (stage (desk ?desk))
  (probe (id ?id) (desk ?desk) (limit ?limit) (temp ?temp&~nil) (was-temp ~?temp))
  =>
  (write-cell 19 ?id (- ?temp ?limit)))
(defrule dim
  (lamp (id ?id) (level ?level) (switch true) (was-switch ~true))
  (pedal (count ?c&~nil))
  =>
  (write-cell (+ 1 (* 2 ?id)) 0 (+ (* ?level 10) ?c)))
(defrule hot
  (probe (id ?id) (desk ?desk) (alarm ?alarm) (was-alarm ~?alarm) (temp ?temp) (was-temp ~?temp))
  =>
  (write-cell 20 ?id ?desk))
(defrule scale
  (stage (step ?step) (desk ?desk))
  (camera (desk ?desk) (width ?width&~nil) (was-width ~?width))
  =>
  (write-cell 21 0 (* ?width (float ?step))))

(defglobal ?*facts* = (create$) ?*was* = (create$) ?*was-steps* = nil
  ?*was-switch* = (create$ nil nil nil nil) ?*was-alarm* = (create$ nil nil nil nil)
  ?*lamp-desks* = (create$ 1 1 2 3) ?*levels* = (create$ 4 7 5 9)
  ?*probe-desks* = (create$ 1 1 2 3) ?*limits* = (create$ 24.0 26.0 22.0 30.0))

(deffunction take-line (?fields)
  (progn$ (?fact ?*facts*) (retract ?fact))
  (bind ?now (create$))
  (progn$ (?reading ?fields) (bind ?now (create$ ?now (taken (nth$ ?reading-index ?*was*) ?reading))))
  (bind ?w ?*was*)
  (bind ?*facts* (create$
    (assert (stage (step 1000) (desk 1) (pos (nth$ 1 ?now)) (edge (nth$ 2 ?now)) (dir (nth$ 3 ?now)) (was-dir (nth$ 3 ?w))))
    (assert (pedal (count (nth$ 4 ?now)) (was-count (nth$ 4 ?w)) (held (nth$ 5 ?now)) (was-held (nth$ 5 ?w))))
    (assert (camera (desk 1) (width (nth$ 6 ?now)) (was-width (nth$ 6 ?w))))
    (assert (log (steps (fired 14)) (was-steps ?*was-steps*)))))
  (bind ?*was-steps* (fired 14))
  (loop-for-count (?k 1 4) do
    (bind ?temp (+ 5 (* 2 ?k)))
    (bind ?ok (+ 1 ?temp))
    (bind ?switch (fired (* 2 ?k)))
    (bind ?alarm (fired (+ 9 ?k)))
    (bind ?*facts* (create$ ?*facts*
      (assert (lamp (id ?k) (desk (nth$ ?k ?*lamp-desks*)) (level (nth$ ?k ?*levels*)) (switch ?switch) (was-switch (nth$ ?k ?*was-switch*))))
      (assert (probe (id ?k) (desk (nth$ ?k ?*probe-desks*)) (limit (nth$ ?k ?*limits*)) (temp (nth$ ?temp ?now)) (was-temp (nth$ ?temp ?w))
        (ok (nth$ ?ok ?now)) (was-ok (nth$ ?ok ?w)) (alarm ?alarm) (was-alarm (nth$ ?k ?*was-alarm*))))))
    (bind ?*was-switch* (replace$ ?*was-switch* ?k ?k ?switch))
    (bind ?*was-alarm* (replace$ ?*was-alarm* ?k ?k ?alarm)))
  (bind ?*was* ?now))

(deffunction main ()
  (open "decimal.txt" in "r")
  (cells 21)
  (bind ?*row* ?*blank*)
  (bind ?*was* (create$ nil nil nil nil nil nil nil nil nil nil nil nil nil nil))
  (printout t "by n camera.snap lamp1.switch lamp1.dim lamp2.switch lamp2.dim lamp3.switch lamp3.dim lamp4.switch lamp4.dim probe1.alarm "
    "probe2.alarm probe3.alarm probe4.alarm log.steps log.mm log.ratio log.turned log.missing log.drift log.hot log.scale" crlf)
  (run-lines))
