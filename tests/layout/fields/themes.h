// What is checked: a theme compares by name, and passes where nothing differs.
#ifndef THEMES_H
#define THEMES_H

// What the library writes stands where the header says.
void table_sizes_written(void);
void fresh_system_written(void);
void table_kept(void);
void states_written(void);
void ledger_written(void);
void lock_written(void);
void kept_written(void);

// What stands where the header says is what the library looks at.
void table_sizes_looked_at(void);
void threads_looked_at(void);
void priorities_looked_at(void);
void ledger_looked_at(void);
void core_sets_looked_at(void);
void occupants_looked_at(void);
void stops_looked_at(void);
void bytes_looked_at(void);

// What the calls take and give beside a system.
void reading_results(void);
void answers(void);
void reasons(void);
void events_by_kind(void);
void events_in_place(void);
void sizes_taken(void);
void held_taken(void);
void batch_results(void);
void batch_room(void);
void any_bit_pattern(void);

#endif
