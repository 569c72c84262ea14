var declared = 'b', hidden = 'b';
