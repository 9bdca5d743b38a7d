attribute stage
   context reference struct request *
   oneof pending, served
   annotations
      pending ==> pending
      served ==> served
   transfers
      pending as served ==> error "A request that is pending is used where it must be served"
      served as pending ==> error "A request that is served is used where it must be pending"
   merge
      pending + served ==> error "A request is pending on one path and served on another"
end
