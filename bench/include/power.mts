attribute power
   context reference struct sensor *
   oneof off, on
   annotations
      off ==> off
      on ==> on
   transfers
      off as on ==> error "A sensor that is off is used where it must be on"
      on as off ==> error "A sensor that is on is used where it must be off"
   merge
      off + on ==> error "A sensor is off on one path and on on another"
end
