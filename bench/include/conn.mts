attribute conn
   context reference struct sock *
   oneof raw, named
   annotations
      raw ==> raw
      named ==> named
   transfers
      raw as named ==> error "A sock that is raw is used where it must be named"
      named as raw ==> error "A sock that is named is used where it must be raw"
   merge
      raw + named ==> error "A sock is raw on one path and named on another"
end
