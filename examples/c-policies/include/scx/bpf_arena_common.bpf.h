/* Arenas, which are memory that a policy and user space share, aren't here. */
#error "arenas aren't here: keep it in an array map"
