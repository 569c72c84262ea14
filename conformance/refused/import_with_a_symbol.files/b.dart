
 #a
