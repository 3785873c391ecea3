; A studio's rule: a file is turned away if its name has a capital letter or a blank.
; Fact 0 tells how many letters the name has; their codes are the facts from 1 on.

(let wrong)                     ; how many letters are wrong

(enum 32 BLANK)
(enum 65 A)
(enum 90 Z)

(def capital (c) () (if (< c A) 0 (if (> c Z) 0 1)))

(def note (c) ()
  (if (+ (capital c) (= c BLANK))
      (do (set wrong (+ wrong 1))
          (sys 2 c))            ; the letter goes to the report
      0))

(def main () (i n)
  (do (set n (sys 3 0))
      (while (< i n)
        (do (set i (+ i 1))
            (note (sys 3 i))))
      wrong))
