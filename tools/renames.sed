# The words of specs and the crates that were renamed, for code that was written with the old ones: sed -i -E -f tools/renames.sed FILE..
# A word is renamed only where it comes from the module that stands above it. tools/renames.py, which reads this list, looks at that for each
# file; sed does not, so look at what it does where a file has the same word from elsewhere, or where two new words meet. Both go
# when nothing is left that has the old words.

# crates
s/\brat_grammar\b/rat_parse/g
s/\brat_table\b/rat_parse_table/g
s/\brat_parts\b/rat_parse_values/g
s/\brat_phrases\b/rat_parse_values/g
s/\brat_plain\b/rat_parse_values/g
s/\brat_statements\b/rat_parse_values/g
s/\bf66_sound\b/f66_soundness/g
s/\bGatherRefusal\b/TextRefusal/g
# modules
s/\bf66_tree\.specs\.Forms\b/f66_tree.specs.Syntax/g
s/\brat_tree\.specs\.Commands\b/rat_tree.specs.Syntax/g
# f66_tree, Statements
s/\bNext\b/Normal/g
s/\bLoop\b/LoopParameters/g
s/\btook\b/taken_content/g
# f66_tree, Editing
s/\bItem\b/EditedItem/g
s/\bThen\b/AndEdit/g
s/\bLacks\b/NoEdit/g
s/\bOnward\b/OnRecords/g
s/\bcut\b/until_last_item/g
s/\bfetched\b/next_record/g
s/\bwithin\b/with_records/g
s/\bended_by\b/finished_by/g
s/\bruns\b/items_run/g
# f66_tree, Turns
s/\bstands\b/hand_at/g
s/\btook\b/with_record/g
s/\bput\b/put_text/g
s/\bline_of\b/line_in_hand/g
s/\bclose\b/end_turn/g
s/\bclosed\b/ended_turn/g
# f66_tree, Fielded
s/\bcode_of\b/character_code/g
s/\bcapped\b/in_magnitude/g
s/\bwith_sign\b/signed_value/g
# f66_tree, Constants
s/\bopposite\b/opposite_value/g
s/\bin_range\b/constant_in_range/g
# f66_tree, Records
s/\bbegun\b/read_begun/g
s/\bplaced\b/tape_placed/g
# f66_tree, Execution
s/\bstart\b/first_state/g
# rat_tree, Syntax
s/\bTogether\b/Block/g
s/\bWhen\b/If/g
s/\bEither\b/IfElse/g
s/\bWhilst\b/While/g
s/\bThrough\b/For/g
s/\bRepeats\b/Repeat/g
s/\bUntil\b/RepeatUntil/g
s/\bCounts\b/Do/g
s/\bSwitches\b/Switch/g
s/\bLeaves\b/Break/g
s/\bTurns\b/Next/g
s/\bGivesBack\b/Return/g
s/\bPlainly\b/Plain/g
s/\bMarked\b/Labelled/g
# rat_tree, Meaning
s/\bThen\b/Continuation/g
s/\bcounts\b/do_turns/g
s/\bfits\b/fits_case/g
s/\bmarks\b/has_own_label/g
s/\blabelled\b/passed_label/g
s/\bplainly\b/plain_statement/g
# rat_tree, Laws
s/\bplaceless\b/body_placeless/g
s/\bPlacesTellTrapsAlone\b/RatforPlacesTellTrapsAlone/g
s/\bUnaskedChangeNothing\b/RatforUnaskedChangeNothing/g
# rat_tree, Views
s/\broutine_of\b/rat_routine_of/g
# rat_check, Parts
s/\bRests\b/Bare/g
s/\bRepeating\b/RepeatHead/g
s/\bSays\b/Statement/g
s/\bAsks\b/Condition/g
s/\bTakes\b/Selector/g
s/\bCompares\b/CaseList/g
s/\bPrepares\b/ForHead/g
s/\bCounting\b/DoHead/g
s/\bLeaving\b/LoopExit/g
s/\bReturning\b/ReturnHead/g
# rat_check, Rules
s/\bWhole\b/UnitRules/g
s/\bis_late\b/is_late_form/g
# rat_check, PartViews
s/\bwhole_in\b/whole_by/g
# rat_check, FirstFault
s/\bwhole_of\b/unit_whole/g
s/\bfirst_unbuilt\b/first_unbuilt_part/g
# rat_check, Said
s/\bcondition\b/condition_act/g
s/\bvalue\b/value_act/g
s/\bvalues\b/value_acts/g
s/\bcontext_of\b/context_of_parts/g
s/\bact_if_any\b/said_if_any/g
# rat_lower, Around
s/\bwith_label\b/behind_label/g
s/\bwith_mark\b/behind_mark/g
# front, Verdict
s/\bcounted\b/one_main/g
s/\bunless\b/or_fault/g
s/\bname_of\b/file_name/g
# front, Compiled
s/\bGives\b/IsAnswered/g
# macro_define, Expansion
s/\bWorld\b/GatherState/g
s/\bstart\b/first_gathering/g
# f66_sound, SoundUnits
s/\bacts_of\b/acts_in_unit/g
# f66_names, Sorts
s/\bis_array\b/is_array_name/g
s/\bform_of\b/name_form/g
# f66_names, Declaring
s/\bcounted\b/dimension_count/g
# f66_names, StoreRules
s/\bis_format\b/is_sound_format/g
# f66_flow, Ranges
s/\bplace_of\b/label_place/g
# name_alloc, MadeNames
s/\bintrinsics\b/intrinsic_names/g
# format_io, Places
s/\bcode_of\b/plan_code/g
# eft_top, Codes
s/\bcode_of\b/exit_code/g
# eft_top, Outcome
s/\bline_of\b/diag_line/g
# eft_top, Report
s/\bTells\b/ReportsOutcome/g
# rat_parts, Parts
s/\bact_if_any\b/act_part/g
s/\bformula_if_any\b/formula_part/g
s/\bnowhere\b/no_place/g
s/\btype_in\b/type_word/g
# rat_statements, Statements
s/\bmarked\b/with_own_label/g
s/\bwith_label\b/labelled_value/g
# f66_tree, Syntax (last, since some of its new words are old words of others)
s/\bNumber\b/Int/g
s/\bFact\b/Truth/g
s/\bVariable\b/Ref/g
s/\bApplied\b/Item/g
s/\bGrouped\b/Group/g
s/\bPositive\b/Plus/g
s/\bNegative\b/Minus/g
s/\bNegated\b/Not/g
s/\bJoined\b/Pair/g
s/\bNought\b/NoFormula/g
s/\bAlso\b/AndFormula/g
s/\bAssigns\b/Assign/g
s/\bGoes\b/Goto/g
s/\bSelects\b/Computed/g
s/\bSigns\b/Sign/g
s/\bChooses\b/When/g
s/\bLoops\b/Loop/g
s/\bInvokes\b/Invoke/g
s/\bPasses\b/Continue/g
s/\bStops\b/Stop/g
s/\bReturns\b/Return/g
s/\bReads\b/Read/g
s/\bWrites\b/Write/g
s/\bFormats\b/Format/g
s/\bTypes\b/Typed/g
s/\bDimensions\b/Dimension/g
s/\bCommons\b/Common/g
s/\bEquivalences\b/Equivalence/g
s/\bPresets\b/Preset/g
s/\bbare\b/unlabelled_line/g
s/\bmarked\b/labelled_line/g
