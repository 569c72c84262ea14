main(a, [b, c]) { print('$a $b $c'); }
