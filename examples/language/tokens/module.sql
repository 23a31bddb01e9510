Module M Language C Authorization U
Procedure PUT (SqlState); Insert Into T Values (-.5+12., 'It''s "it" --');
Procedure EMPTY (SqlState); Insert Into t Values (1.25, '');
