attribute latch
   context reference struct lock *
   oneof loose, shut
   annotations
      loose ==> loose
      shut ==> shut
   transfers
      loose as shut ==> error "A lock that is loose is used where it must be shut"
      shut as loose ==> error "A lock that is shut is used where it must be loose"
   merge
      loose + shut ==> error "A lock is loose on one path and shut on another"
end
