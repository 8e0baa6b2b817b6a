! The Glk calls by name, for the games of this folder and for Inform's library, which includes a file of this name.
! Numbers are those of Glk 0.7.5, "The Glk Dispatch Layer", "Table of Selectors", and of its glk.h. A call hands its
! arguments on as it has them, on the stack, and answers what Glk answers.
!
! Only what the games and the library use is here.

System_file;

Constant GLK_NULL = 0;

Constant gestalt_Version = 0;
Constant gestalt_CharInput = 1;
Constant gestalt_LineInput = 2;
Constant gestalt_CharOutput = 3;
Constant gestalt_Sound = 8;
Constant gestalt_Unicode = 15;

Constant evtype_CharInput = 2;
Constant evtype_LineInput = 3;
Constant evtype_Arrange = 5;

Constant keycode_Unknown = $ffffffff;
Constant keycode_Return = $fffffffa;

Constant style_Normal = 0;
Constant style_Emphasized = 1;
Constant style_Preformatted = 2;
Constant style_Header = 3;
Constant style_Subheader = 4;
Constant style_Alert = 5;
Constant style_Note = 6;
Constant style_BlockQuote = 7;
Constant style_Input = 8;

Constant wintype_Pair = 1;
Constant wintype_Blank = 2;
Constant wintype_TextBuffer = 3;
Constant wintype_TextGrid = 4;

Constant winmethod_Left = $00;
Constant winmethod_Right = $01;
Constant winmethod_Above = $02;
Constant winmethod_Below = $03;
Constant winmethod_Fixed = $10;
Constant winmethod_Proportional = $20;

Constant fileusage_Data = $00;
Constant fileusage_Transcript = $02;
Constant fileusage_TextMode = $100;
Constant fileusage_BinaryMode = $000;

Constant filemode_Write = $01;
Constant filemode_Read = $02;
Constant filemode_ReadWrite = $03;
Constant filemode_WriteAppend = $05;

Constant seekmode_Start = 0;
Constant seekmode_Current = 1;
Constant seekmode_End = 2;

[ glk_exit _vararg_count ret; @glk $0001 _vararg_count ret; return ret; ];
[ glk_gestalt _vararg_count ret; @glk $0004 _vararg_count ret; return ret; ];
[ glk_window_iterate _vararg_count ret; @glk $0020 _vararg_count ret; return ret; ];
[ glk_window_get_rock _vararg_count ret; @glk $0021 _vararg_count ret; return ret; ];
[ glk_window_get_root _vararg_count ret; @glk $0022 _vararg_count ret; return ret; ];
[ glk_window_open _vararg_count ret; @glk $0023 _vararg_count ret; return ret; ];
[ glk_window_close _vararg_count ret; @glk $0024 _vararg_count ret; return ret; ];
[ glk_window_get_size _vararg_count ret; @glk $0025 _vararg_count ret; return ret; ];
[ glk_window_set_arrangement _vararg_count ret; @glk $0026 _vararg_count ret; return ret; ];
[ glk_window_get_arrangement _vararg_count ret; @glk $0027 _vararg_count ret; return ret; ];
[ glk_window_get_type _vararg_count ret; @glk $0028 _vararg_count ret; return ret; ];
[ glk_window_get_parent _vararg_count ret; @glk $0029 _vararg_count ret; return ret; ];
[ glk_window_clear _vararg_count ret; @glk $002A _vararg_count ret; return ret; ];
[ glk_window_move_cursor _vararg_count ret; @glk $002B _vararg_count ret; return ret; ];
[ glk_window_get_stream _vararg_count ret; @glk $002C _vararg_count ret; return ret; ];
[ glk_window_set_echo_stream _vararg_count ret; @glk $002D _vararg_count ret; return ret; ];
[ glk_window_get_echo_stream _vararg_count ret; @glk $002E _vararg_count ret; return ret; ];
[ glk_set_window _vararg_count ret; @glk $002F _vararg_count ret; return ret; ];
[ glk_window_get_sibling _vararg_count ret; @glk $0030 _vararg_count ret; return ret; ];
[ glk_stream_iterate _vararg_count ret; @glk $0040 _vararg_count ret; return ret; ];
[ glk_stream_open_file _vararg_count ret; @glk $0042 _vararg_count ret; return ret; ];
[ glk_stream_open_memory _vararg_count ret; @glk $0043 _vararg_count ret; return ret; ];
[ glk_stream_close _vararg_count ret; @glk $0044 _vararg_count ret; return ret; ];
[ glk_stream_set_position _vararg_count ret; @glk $0045 _vararg_count ret; return ret; ];
[ glk_stream_get_position _vararg_count ret; @glk $0046 _vararg_count ret; return ret; ];
[ glk_stream_set_current _vararg_count ret; @glk $0047 _vararg_count ret; return ret; ];
[ glk_stream_get_current _vararg_count ret; @glk $0048 _vararg_count ret; return ret; ];
[ glk_fileref_create_temp _vararg_count ret; @glk $0060 _vararg_count ret; return ret; ];
[ glk_fileref_create_by_name _vararg_count ret; @glk $0061 _vararg_count ret; return ret; ];
[ glk_fileref_create_by_prompt _vararg_count ret; @glk $0062 _vararg_count ret; return ret; ];
[ glk_fileref_destroy _vararg_count ret; @glk $0063 _vararg_count ret; return ret; ];
[ glk_fileref_iterate _vararg_count ret; @glk $0064 _vararg_count ret; return ret; ];
[ glk_fileref_delete_file _vararg_count ret; @glk $0066 _vararg_count ret; return ret; ];
[ glk_fileref_does_file_exist _vararg_count ret; @glk $0067 _vararg_count ret; return ret; ];
[ glk_put_char _vararg_count ret; @glk $0080 _vararg_count ret; return ret; ];
[ glk_put_char_stream _vararg_count ret; @glk $0081 _vararg_count ret; return ret; ];
[ glk_put_string _vararg_count ret; @glk $0082 _vararg_count ret; return ret; ];
[ glk_put_buffer _vararg_count ret; @glk $0084 _vararg_count ret; return ret; ];
[ glk_put_buffer_stream _vararg_count ret; @glk $0085 _vararg_count ret; return ret; ];
[ glk_set_style _vararg_count ret; @glk $0086 _vararg_count ret; return ret; ];
[ glk_get_char_stream _vararg_count ret; @glk $0090 _vararg_count ret; return ret; ];
[ glk_get_line_stream _vararg_count ret; @glk $0091 _vararg_count ret; return ret; ];
[ glk_get_buffer_stream _vararg_count ret; @glk $0092 _vararg_count ret; return ret; ];
[ glk_char_to_lower _vararg_count ret; @glk $00A0 _vararg_count ret; return ret; ];
[ glk_char_to_upper _vararg_count ret; @glk $00A1 _vararg_count ret; return ret; ];
[ glk_select _vararg_count ret; @glk $00C0 _vararg_count ret; return ret; ];
[ glk_select_poll _vararg_count ret; @glk $00C1 _vararg_count ret; return ret; ];
[ glk_request_line_event _vararg_count ret; @glk $00D0 _vararg_count ret; return ret; ];
[ glk_cancel_line_event _vararg_count ret; @glk $00D1 _vararg_count ret; return ret; ];
[ glk_request_char_event _vararg_count ret; @glk $00D2 _vararg_count ret; return ret; ];
[ glk_cancel_char_event _vararg_count ret; @glk $00D3 _vararg_count ret; return ret; ];
[ glk_request_timer_events _vararg_count ret; @glk $00D6 _vararg_count ret; return ret; ];
[ glk_schannel_iterate _vararg_count ret; @glk $00F0 _vararg_count ret; return ret; ];
[ glk_buffer_to_lower_case_uni _vararg_count ret; @glk $0120 _vararg_count ret; return ret; ];
[ glk_buffer_to_upper_case_uni _vararg_count ret; @glk $0121 _vararg_count ret; return ret; ];
[ glk_buffer_to_title_case_uni _vararg_count ret; @glk $0122 _vararg_count ret; return ret; ];
[ glk_put_char_uni _vararg_count ret; @glk $0128 _vararg_count ret; return ret; ];
[ glk_put_string_uni _vararg_count ret; @glk $0129 _vararg_count ret; return ret; ];
[ glk_put_buffer_uni _vararg_count ret; @glk $012A _vararg_count ret; return ret; ];
[ glk_put_char_stream_uni _vararg_count ret; @glk $012B _vararg_count ret; return ret; ];
[ glk_get_char_stream_uni _vararg_count ret; @glk $0130 _vararg_count ret; return ret; ];
[ glk_get_buffer_stream_uni _vararg_count ret; @glk $0131 _vararg_count ret; return ret; ];
[ glk_get_line_stream_uni _vararg_count ret; @glk $0132 _vararg_count ret; return ret; ];
[ glk_stream_open_file_uni _vararg_count ret; @glk $0138 _vararg_count ret; return ret; ];
[ glk_stream_open_memory_uni _vararg_count ret; @glk $0139 _vararg_count ret; return ret; ];
[ glk_request_char_event_uni _vararg_count ret; @glk $0140 _vararg_count ret; return ret; ];
[ glk_request_line_event_uni _vararg_count ret; @glk $0141 _vararg_count ret; return ret; ];
