
  main
(
)
{print(007);print ( 1+1 +1 )
;   }

