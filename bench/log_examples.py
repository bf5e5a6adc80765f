"""Writes the generated lemmas of crates/log_examples: logs, each proved legal, or refuted by the field that fails.

    python3 bench/log_examples.py [MODEL]

MODEL is the folder of the plain model of the engine and of its checker (default ../shared/model, from the top of the
repository). The model plays each scenario; the checker has to call the log legal, and each broken one illegal. Then
`rt fmt` in crates/log_examples lays the files out, and `rt check` there proves them.

    python3 bench/log_examples.py --random FIRST COUNT ROWS FOLDER [MODEL]

writes lemmas on COUNT random logs of at most ROWS rows, half of them broken by one edit, into FOLDER (the proofs/ of a
copy of the crate): that all tests of a legal log hold exactly where the checker says legal, and that a log as it was
played acts at once. FOLDER/logs.txt has the logs.
"""
import os
import random
import re
import sys

import log_rows

TOP = os.path.dirname(os.path.dirname(os.path.abspath(__file__)))

# scenarios by topic: name, what happens, the lines
SCENARIOS = [
    ('Pushes', [
        ('opened_only', 'A tab that was only opened.',
         'session 1|open http://a.test/'),
        ('poke_that_waits', 'A push that its document has not made yet.',
         'session 1|open http://a.test/|push 0 s /1'),
        ('one_push', 'One push, and the update of length and index after it.',
         'session 1|open http://a.test/|push 0 s /1|settle'),
        ('three_pushes', 'Three pushes, one after the other.',
         'session 1|open http://a.test/|push 0 s1 /1|push 0 s2 /2|push 0 s3 /3|settle'),
        ('replace_and_fragment', 'A replace, and a fragment that is a push.',
         'session 1|open http://a.test/|replace 0 m|fragment 0 x|settle'),
        ('push_after_a_death', 'A push where the document is dead is refused.',
         'session 1|open http://a.test/|push 0 s /1|settle|kill 1|settle|push 0 t /2|settle'),
        ('push_beside_a_frame', 'A push of the top beside a frame.',
         'session 1|open http://a.test/|frame 0 1|settle|push 0 s /1|settle'),
        ('push_in_an_initial_document', 'A push in an initial about:blank document is a replace.',
         'session 1|open about:blank|push 0 s|settle|push 0 t #x|settle'),
        ('push_to_another_origin', 'A push to another origin is refused.',
         'session 1|open http://a.test/|push 0 s http://b.test/|push 0 s ../1|settle'),
        ('poke_of_the_newer_document', 'A poke while the document before runs still reaches the newer one.',
         'session 1|site http://b.test 2|open http://a.test/|load 0 auto http://b.test/|begin 2|finish 2|deliver 2|begin 2|finish 2|push 0 s /1|settle'),
        ('same_fragment_again', 'A fragment that the address has already is a replace.',
         'session 1|open http://a.test/|fragment 0 x|settle|fragment 0 x|settle'),
    ]),
    ('Traversals', [
        ('back_after_three_pushes', 'Back by one after three pushes.',
         'session 1|open http://a.test/|push 0 s1 /1|push 0 s2 /2|push 0 s3 /3|settle|go -1|settle'),
        ('push_after_going_back', 'A push after going back clears the forward session history.',
         'session 1|open http://a.test/|push 0 s1 /1|push 0 s2 /2|push 0 s3 /3|settle|go -2|settle|push 0 s4 /4|settle'),
        ('beyond_the_end', 'A traversal beyond the last used step is refused.',
         'session 1|open http://a.test/|go 5'),
        ('forward_at_the_end', 'A traversal forward at the last used step is refused.',
         'session 1|open http://a.test/|go 1'),
        ('document_goes_back', 'A document goes back by itself.',
         'session 1|open http://a.test/|push 0 s /1|settle|docgo 0 -1|settle'),
        ('push_under_an_old_epoch', 'A push under the epoch before a traversal is dropped by it.',
         'session 1|open http://a.test/|push 0 s /1|settle|go -1|begin 1|push 0 t /2|settle'),
        ('two_traversals_in_the_queue', 'Two traversals: the second begins where the first has ended.',
         'session 1|open http://a.test/|push 0 s /1|settle|push 0 s /2|settle|go -1|go -1|settle'),
        ('document_goes_beyond', 'A document goes beyond the first used step, and beyond the last.',
         'session 1|open http://a.test/|docgo 0 -1|docgo 0 1|settle'),
    ]),
    ('Interleavings', [
        ('push_beside_a_running_traversal', 'A push in a navigable that a running traversal has not moved is applied before it.',
         'session 1|open http://a.test/|frame 0 1|frame 0 2|settle|load 1 auto http://a.test/f1|load 2 auto http://a.test/g|settle|load 1 auto http://a.test/f2|settle|push 2 s /h|go -1|act 1|deliver 1|settle'),
        ('goal_cleared_by_a_push', 'A push clears the goal of a running traversal, which then ends at the step before.',
         'session 1|open http://a.test/|frame 0 1|frame 0 2|settle|load 1 auto http://a.test/f1|load 2 auto http://a.test/g|settle|load 1 auto http://a.test/f2|settle|go -1|settle|push 2 s /h|go 1|act 1|deliver 1|settle'),
        ('held_back_push', 'A push in a navigable that a running traversal has moved waits for it.',
         'session 1|open http://a.test/|frame 0 1|settle|load 1 auto http://a.test/f|settle|fragment 0 x|settle|push 1 t /f2|settle|go -2|begin 1|finish 1|push 0 s /2|act 1|deliver 1|deliver 1|settle'),
        ('held_back_push_and_removal', 'A held back push, and a frame that is removed with it.',
         'session 1|site http://b.test 2|open http://a.test/|frame 0 1|settle|load 1 auto http://a.test/p0|settle|frame 1 2|settle|load 2 auto http://b.test/p0|push 1 s|settle|load 2 auto http://a.test/p0|settle|go -2|begin 2|finish 2|deliver 2|push 2 s|remove 1 2|settle'),

        ('back_after_a_held_back_push', 'A traversal after one that had a held back push.',
         'session 1|open http://a.test/|frame 0 1|settle|load 1 auto http://a.test/f|settle|fragment 0 x|settle|push 1 t /f2|settle|go -2|begin 1|finish 1|push 0 s /2|act 1|deliver 1|deliver 1|settle|go -1|settle'),
        ('held_back_frame', 'A held back frame is refused, for its number is taken.',
         'session 1|open http://a.test/|frame 0 1|settle|load 1 auto http://a.test/f|settle|fragment 0 x|settle|push 1 t /f2|settle|go -2|begin 1|finish 1|frame 0 1|act 1|deliver 1|deliver 1|settle|go 1|settle'),
        ('held_back_and_dropped', 'A death drops what was held back.',
         'session 1|open http://a.test/|frame 0 1|settle|load 1 auto http://a.test/f|settle|fragment 0 x|settle|push 1 t /f2|settle|go -2|begin 1|finish 1|frame 0 1|act 1|deliver 1|deliver 1|kill 1|settle|reload 0|settle|go 1|settle'),
        ('entry_of_a_frame_is_cleared', 'A push clears the entry that a running traversal has shown in a frame, and what the frame made is dropped.',
         'session 1|open http://a.test/|frame 0 1|frame 0 2|settle|load 1 auto http://a.test/f1|load 2 auto http://a.test/g|settle|load 1 auto http://a.test/f2|settle|go -1|settle|push 2 s /h|go 1|act 1|begin 1|finish 1|begin 1|finish 1|push 1 t /k|act 1|deliver 1|deliver 1|deliver 1|deliver 1|settle'),
        ('back_before_it_was_shown', 'A push takes a frame back before the report that its other document was shown.',
         'session 1|site http://b.test 2|open http://a.test/|frame 0 1|frame 0 2|settle|load 1 auto http://a.test/f1|load 2 auto http://a.test/g|settle|load 1 auto http://b.test/f2|settle|go -1|settle|push 2 s /h|go 1|act 1|deliver 1|begin 1|finish 1|deliver 1|begin 1|finish 1|deliver 1|settle'),
        ('document_goes_during_a_traversal', 'A document that a running traversal has shown goes forward: it joins the queue, and is not held back.',
         'session 1|open http://a.test/|frame 0 1|settle|load 1 auto http://a.test/f|settle|fragment 0 x|settle|push 1 t /f2|settle|go -2|begin 1|finish 1|docgo 0 1|act 1|deliver 1|deliver 1|settle'),
    ]),
    ('Loads', [
        ('later_load', 'A later load takes the place of the first, and one during a traversal is dropped.',
         'session 1|open http://a.test/|load 0 auto http://a.test/1|load 0 auto http://a.test/2|settle|go -1|load 0 auto http://a.test/3|settle'),
        ('no_document_kept', 'A load and back, where no document is kept.',
         'session 1|keep 0|open http://a.test/|load 0 auto http://a.test/1|settle|go -1|settle'),
        ('two_processes', 'A load into another process, and back.',
         'session 1|site http://b.test 2|open http://a.test/|load 0 auto http://b.test/|settle|go -1|settle'),
        ('push_over_a_kept_document', 'A push clears the state of a kept document, which is discarded.',
         'session 1|open http://a.test/|load 0 auto http://a.test/p1|settle|go -1|settle|push 0 s|settle'),
        ('load_ended_by_a_traversal', 'A traversal that moves the navigable ends its load.',
         'session 1|site http://b.test 2|open http://a.test/|load 0 auto http://a.test/p1|settle|load 0 auto http://b.test/p0|go -1|begin 1|finish 1|deliver 1|settle'),
        ('load_ended_by_a_reload', 'A reload of the navigable ends its load.',
         'session 1|site http://b.test 2|open http://a.test/|load 0 auto http://b.test/p0|reload 0|settle'),
        ('evicted_documents', 'Kept documents that are too many, and one that is evicted.',
         'session 1|keep 1|open http://a.test/|load 0 auto http://a.test/1|settle|load 0 auto http://a.test/2|settle|go -2|settle|evict|evict|settle'),
        ('fragment_load', 'A load that is a fragment navigation.',
         'session 1|open http://a.test/|load 0 auto http://a.test/#x|settle'),
        ('load_of_no_navigable', 'A load and a reload of a navigable that is not there.',
         'session 1|open http://a.test/|load 5 auto http://a.test/1|reload 5|settle'),
        ('load_as_a_push', 'A load of the same address that is to be a push.',
         'session 1|open http://a.test/|load 0 push http://a.test/|settle'),
        ('fragment_load_again', 'A fragment navigation to the same address is a replace.',
         'session 1|open http://a.test/|load 0 auto http://a.test/#x|settle|load 0 auto http://a.test/#x|settle'),
        ('load_of_an_initial_document', 'A load over the first about:blank document is a replace.',
         'session 1|open about:blank|load 0 auto http://a.test/|settle|go -1|settle'),
        ('load_behind_a_load', 'A load gives way to one that was applied as it was on its way.',
         'session 1|site http://b.test 2|open http://a.test/|load 0 auto http://b.test/1|begin 2|finish 2|deliver 2|load 0 auto http://a.test/2|settle'),
        ('fragment_beside_a_traversal', 'A fragment of the top jumps the queue while a frame is moved.',
         'session 1|open http://a.test/|frame 0 1|settle|load 1 auto http://a.test/f|settle|load 1 auto http://a.test/g|settle|load 0 auto http://a.test/#x|go -1|settle'),
        ('fragment_above_a_load', 'A fragment of the top leaves the load of a frame alone.',
         'session 1|site http://b.test 2|open http://a.test/|frame 0 1|settle|load 1 auto http://b.test/f|load 0 auto http://a.test/#x|settle'),
        ('fragment_as_a_push', 'A fragment navigation that is to be a push.',
         'session 1|open http://a.test/|load 0 push http://a.test/#x|settle'),
        ('fragment_beside_a_reload', 'A fragment of the top is applied beside the reload of a frame, which drops a load of that frame.',
         'session 1|site http://b.test 2|open http://a.test/|frame 0 1|settle|load 1 auto http://b.test/f|settle|reload 1|load 0 auto http://a.test/#x|begin 1|finish 1|deliver 1|load 1 auto http://b.test/g'),
    ]),
    ('Frames', [
        ('frame_loads_and_fragment', 'Loads of a frame, a fragment of the top, and back four times.',
         'session 1|open http://a.test/|frame 0 1|settle|load 1 auto http://a.test/f1|settle|load 1 auto http://a.test/f2|settle|load 1 auto http://a.test/f3|settle|load 0 auto http://a.test/#x|settle|go -1|settle|go -1|settle|go -1|settle|go -1|settle'),
        ('frame_replaced', 'A load of a new frame is a replace, and a bad address is refused.',
         'session 1|open http://a.test/|frame 0 1|settle|load 1 auto http://a.test/f|settle|load 1 auto http://a.test/f|settle|replace 1 s http://b.test/|settle'),
        ('taken_number', 'A frame number that is taken.',
         'session 1|open http://a.test/|frame 0 1|settle|frame 0 1|settle'),
        ('frame_after_a_replace', 'The entry of a frame after one that a document made.',
         'session 1|open about:blank|push 0 s|settle|frame 0 1|settle'),
        ('frame_at_a_later_step', 'A frame is added to a document that stands at two steps.',
         'session 1|open http://a.test/|push 0 s /q0|settle|frame 0 1|settle|push 0 s /q1|settle|go -2|settle'),
        ('frame_of_a_middle_document', 'A frame is added to a document that is neither the first nor the last.',
         'session 1|open http://a.test/|load 0 auto http://a.test/p1|settle|load 0 push http://a.test/p0|settle|go -1|settle|frame 0 1|settle'),
        ('replace_above_a_load', 'A replace of the top leaves the load of a frame alone.',
         'session 1|open about:blank|frame 0 1|settle|load 1 auto http://b.test/p0|push 0 s|settle'),
        ('load_of_a_new_frame', 'A load of a frame whose first document was never shown is dropped.',
         'session 1|open http://a.test/|frame 0 1|act 1|deliver 1|begin 1|finish 1|deliver 1|load 1 auto http://a.test/f|settle'),
        ('current_step_without_entry', 'A replace tidies away the entries of the current step.',
         'session 1|open http://a.test/|frame 0 1|settle|load 1 auto http://a.test/f|settle|load 1 auto http://a.test/g|settle|load 0 replace http://a.test/x|settle'),
        ('load_while_frames_are_moved', 'A load while a traversal moves another navigable.',
         'session 1|site http://b.test 2|open http://a.test/|frame 0 1|settle|load 1 auto http://b.test/f|settle|push 0 s|settle|load 1 auto http://b.test/g|settle|go -2|begin 1|finish 1|deliver 1|load 0 auto http://a.test/p1|settle'),
    ]),
    ('Removals', [
        ('removed_frame', 'A frame is loaded twice and removed; its steps go with it.',
         'session 1|open http://a.test/|frame 0 1|settle|load 1 auto http://a.test/f1|settle|load 1 auto http://a.test/f2|settle|remove 0 1|settle'),
        ('push_after_a_removal', 'The step of a removed frame is no longer used, and a push follows the one before it.',
         'session 1|open http://a.test/|frame 0 1|settle|load 1 auto http://a.test/f1|settle|load 1 auto http://a.test/f2|settle|remove 0 1|settle|push 0 s /1|settle|go -1|settle|go 1|settle'),
        ('removal_of_a_frame_of_another', 'A document removes a frame that another document has.',
         'session 1|open http://a.test/|frame 0 1|settle|frame 1 2|settle|remove 0 2|settle'),
        ('push_of_a_removed_frame', 'A push of a frame that was removed is dropped.',
         'session 1|open http://a.test/|frame 0 1|settle|remove 0 1|push 1 s|settle'),
        ('removal_and_push', 'A removal and a push that are taken up together.',
         'session 1|open http://a.test/|frame 0 1|settle|load 1 auto http://a.test/f|settle|load 1 auto http://a.test/f2|settle|fragment 0 x|settle|go -2|settle|go 2|begin 1|finish 1|deliver 1|remove 0 1|push 0 s /y|act 1|act 1|deliver 1|deliver 1|settle'),
        ('removal_and_push_of_two_processes', 'The same, in two processes.',
         'session 1|site http://b.test 2|open http://a.test/|frame 0 1|settle|load 1 auto http://b.test/f|settle|load 1 auto http://b.test/g|settle|push 0 s|settle|go -2|settle|go 2|begin 1|finish 1|deliver 1|begin 1|finish 1|deliver 1|remove 0 1|push 0 t|act 1|act 1|deliver 1|deliver 1|settle'),
        ('push_of_a_removed_frame_behind_another', 'A push of a frame that was removed is dropped by the removal, behind another push.',
         'session 1|site http://b.test 2|open http://a.test/|frame 0 1|settle|load 1 auto http://b.test/f|settle|push 1 s|act 2|remove 0 1|act 1|deliver 1|push 0 t|act 1|deliver 1|deliver 2'),
    ]),
    ('Reloads', [
        ('kept_frame_document_at_a_reload', 'A kept document of a frame outlives the reload of its parent.',
         'session 1|open http://a.test/|frame 0 1|settle|load 1 auto http://a.test/f|settle|load 1 auto http://a.test/f2|settle|reload 0|settle|go -1|settle'),
        ('kept_frame_document_at_an_eviction', "A kept document of a frame goes with its parent's.",
         'session 1|keep 1|site http://b.test 2|open http://a.test/|frame 0 1|settle|load 1 auto http://b.test/f|settle|load 0 auto http://b.test/p0|settle|evict|settle|go -1|settle'),
        ('reload_of_a_hidden_frame', 'A reload of a frame that is not shown.',
         'session 1|open http://a.test/|frame 0 1|settle|load 0 auto http://a.test/1|settle|reload 1|settle|reload 0|settle'),
        ('reload_and_back', 'A reload, and back before it is done: the document that is shown was made before it.',
         'session 1|open http://a.test/|load 0 auto http://b.test/p0|settle|reload 0|go -1|settle'),
        ('reload_and_death', 'A death as the document of a reload is being shown.',
         'session 1|site http://b.test 2|open http://a.test/|frame 0 1|settle|load 1 auto http://b.test/p0|settle|reload 1|begin 2|finish 2|deliver 2|begin 2|kill 2|deliver 2|begin 2|settle'),
    ]),
    ('Prompts', [
        ('stay', 'The user stays on a page with unsaved edits.',
         'session 1|page http://a.test/1 0|open http://a.test/|load 0 auto http://a.test/1|settle|edit 0|settle|go -1|settle|answer 3 stay'),
        ('leave', 'The user leaves a page with unsaved edits.',
         'session 1|page http://a.test/1 0|open http://a.test/|load 0 auto http://a.test/1|settle|edit 0|settle|go -1|settle|answer 3 leave|settle'),
        ('one_prompt_for_two', 'Two documents want a prompt, and the user is asked once.',
         'session 1|page http://a.test/1 1|page http://a.test/f 1|open http://a.test/|load 0 auto http://a.test/1|settle|frame 0 1|settle|load 1 auto http://a.test/f|settle|go -1|settle|answer 4 leave|settle'),
        ('load_behind_a_prompt', 'A load of a frame that was added while a prompt is up.',
         'session 1|page http://a.test/p1 1|open http://a.test/|load 0 auto http://a.test/p1|settle|frame 0 1|go -1|act 1|deliver 1|begin 1|finish 1|begin 1|finish 1|deliver 1|deliver 1|load 1 auto http://a.test/p2|settle|answer 3 stay|settle'),
        ('question_settled_by_a_discard', 'A question is settled as its document is discarded.',
         'session 1|site http://b.test 2|page http://b.test/p0 1|page about:blank 1|open http://a.test/|frame 0 1|settle|frame 1 3|settle|load 3 auto http://b.test/p0|settle|answer 3 leave|settle|load 1 auto http://b.test/p0|remove 0 1|act 1|begin 2|finish 2|deliver 2|deliver 1|settle'),
        ('wish_of_a_discarded_document', 'A document that wanted a prompt is discarded before the user is asked.',
         'session 1|site http://c.test 3|page http://a.test/p0 0|page http://c.test/p1 1|open http://a.test/|frame 0 1|settle|load 1 auto http://b.test/p0|frame 0 3|settle|load 3 auto http://b.test/p0|settle|load 3 auto http://a.test/p0|settle|answer 5 leave|load 1 auto http://c.test/p1|settle|go -2|remove 0 2|remove 0 1|act 1|settle'),
        ('load_behind_an_answer', 'A load of a page with unsaved edits.',
         'session 1|page http://a.test/1 0|open http://a.test/|load 0 auto http://a.test/1|settle|edit 0|settle|load 0 auto http://a.test/2|settle|answer 3 leave|settle'),
        ('frames_asked_in_order', 'Frames are asked in the order of their numbers, not in that of their making.',
         'session 1|page about:blank 1|open http://a.test/|frame 0 2|settle|frame 0 1|settle|reload 0|settle'),
        ('load_dropped_before_its_answer', 'A load gives way to a later one before the document has answered.',
         'session 1|page http://a.test/1 1|open http://a.test/|load 0 auto http://a.test/1|settle|load 0 auto http://a.test/2|load 0 auto http://a.test/3|settle|answer 3 leave|settle'),
        ('two_prompts_at_once', 'A death settles the questions of a load and of a traversal, and the user is asked for both.',
         'session 1|site http://b.test 2|page http://a.test/1 1|page http://b.test/f 1|open http://a.test/|load 0 auto http://a.test/1|settle|frame 0 1|settle|load 1 auto http://b.test/f|settle|load 0 auto http://a.test/2|go -1|begin 1|finish 1|deliver 1|begin 1|finish 1|deliver 1|kill 2|deliver 2'),
        ('hidden_frame_is_asked', 'A traversal hides a frame, and asks its document.',
         'session 1|page http://a.test/f 1|open http://a.test/|load 0 auto http://a.test/1|settle|go -1|settle|frame 0 1|settle|load 1 auto http://a.test/f|settle|go 1'),
        ('waiting_traversal_asks', 'A traversal waits for a reload, and asks as it begins.',
         'session 1|page http://a.test/1 0|open http://a.test/|load 0 auto http://a.test/1|settle|reload 0|go -1|settle'),
    ]),
    ('Deaths', [
        ('void_order', 'An order to a dead incarnation is void.',
         'session 1|open http://a.test/|push 0 s /1|act 1|kill 1|deliver 1|begin 1|settle'),
        ('one_of_two_processes_dies', 'A death in one of two processes.',
         'session 1|site http://b.test 2|open http://a.test/|frame 0 1|settle|load 1 auto http://b.test/f|settle|load 1 auto http://b.test/g|settle|kill 1|settle'),
        ('reload_after_a_death', 'A lost navigable is reloaded.',
         'session 1|site http://b.test 2|open http://a.test/|frame 0 1|settle|load 1 auto http://b.test/f|settle|load 1 auto http://b.test/g|settle|kill 1|settle|go -1|settle|reload 0|settle'),
        ('questions_of_the_dead', 'A death settles questions, and drops a reload and a load.',
         'session 1|page about:blank 1|open http://a.test/|frame 0 2|settle|frame 2 3|settle|reload 3|kill 1|load 3 auto http://b.test/p0|settle'),
        ('load_below_a_lost_navigable', 'A death above a loading frame drops its load.',
         'session 1|site http://b.test 2|open http://a.test/|frame 0 1|settle|load 1 auto http://b.test/f|kill 1|deliver 1|settle'),
        ('reload_whose_target_changes', 'A reload is ready while the target has changed.',
         'session 1|site http://b.test 2|open http://a.test/|frame 0 1|settle|load 1 auto http://b.test/f|settle|load 1 auto http://b.test/g|settle|reload 1|kill 1|deliver 1|begin 2|finish 2|deliver 2|begin 2|finish 2|deliver 2|begin 2|finish 2|deliver 2|go -1|settle|reload 0|settle|go 1|settle'),
        ('poke_of_a_dead_document', 'A death takes a poke that waits.',
         'session 1|open http://a.test/|push 0 s /1|kill 1|settle'),
        ('death_above_a_frame', 'A death of the document above drops what a frame made.',
         'session 1|site http://b.test 2|open http://a.test/|frame 0 1|settle|load 1 auto http://b.test/f|settle|push 1 s /g|act 2|kill 1|deliver 1|deliver 2|settle'),
        ('death_of_a_frame', 'A frame is lost, and its document above is not.',
         'session 1|site http://b.test 2|open http://a.test/|frame 0 1|settle|load 1 auto http://b.test/f|settle|push 1 s /g|act 2|kill 2|deliver 2|deliver 2|settle|reload 1|settle'),
        ('death_of_a_fragment_order', 'A death drops a load whose fragment order waits.',
         'session 1|open http://a.test/|load 0 auto http://a.test/#x|kill 1|settle'),
        ('two_deaths', 'A process dies twice.',
         'session 1|open http://a.test/|push 0 s /1|kill 1|kill 1|settle|reload 0|settle'),
        ('death_with_an_order_in_hand', 'A process dies with an order in hand.',
         'session 1|open http://a.test/|push 0 s /1|act 1|deliver 1|begin 1|kill 1|settle|reload 0|settle'),
        ('reload_that_cannot_begin', 'A reload is refused as a document above is known dead.',
         'session 1|open http://a.test/|frame 0 1|settle|reload 1|kill 1|deliver 1|reload 1|settle'),
        ('deaths_of_a_frame_and_its_parent', 'A frame dies, and the document above it.',
         'session 1|site http://b.test 2|open http://a.test/|frame 0 1|settle|load 1 auto http://b.test/f|settle|load 1 auto http://b.test/g|kill 2|kill 1|settle'),
        ('death_behind_a_held_back_push', 'A death behind a held back push.',
         'session 1|open http://a.test/|frame 0 1|settle|load 1 auto http://a.test/f|settle|fragment 0 x|settle|push 1 t /f2|settle|go -2|begin 1|finish 1|push 0 s /2|frame 0 2|act 1|act 1|deliver 1|deliver 1|deliver 1|kill 1|settle'),
        ('document_made_by_the_dead', 'A document is made into an incarnation whose death is not known.',
         'session 1|site http://b.test 2|open http://a.test/|load 0 auto http://b.test/1|kill 2|settle|load 0 auto http://b.test/2|settle'),
        ('death_above_what_a_frame_made', 'A death takes the loaded document above a frame of another process, and what the frame made is dropped.',
         'session 1|site http://b.test 2|open http://a.test/|load 0 auto http://b.test/|settle|frame 0 1|settle|load 1 auto http://a.test/f|settle|push 1 s|act 1|kill 2|deliver 2|deliver 1'),
        ('death_above_a_sleeping_frame', 'A load puts a frame to sleep, and a death takes the loaded document: what the frame made is dropped by the load.',
         'session 1|site http://b.test 2|open http://a.test/|frame 0 1|settle|push 1 s|act 1|load 0 auto http://b.test/|begin 2|finish 2|deliver 2|kill 2|deliver 2|deliver 1'),
    ]),
    ('Pending', [
        ('two_pushes_on_their_way', 'Two pushes are made, and the first one is delivered.',
         'session 1|open http://a.test/|push 0 s /1|push 0 t /2|act 1|act 1|deliver 1'),
        ('push_behind_a_traversal', 'A traversal ends while a push waits.',
         'session 1|open http://a.test/|push 0 s /1|settle|go -1|begin 1|finish 1|push 0 t /2|deliver 1'),
        ('traversal_beside_a_push', 'A traversal begins while a push waits.',
         'session 1|open http://a.test/|push 0 s /1|settle|push 0 t /2|go -1'),
        ('load_beside_a_push', 'A load is applied while a push waits.',
         'session 1|open http://a.test/|load 0 auto http://a.test/1|begin 1|finish 1|push 0 s /2|deliver 1'),
        ('load_over_a_frame', 'A load of the top, which has a frame.',
         'session 1|open http://a.test/|frame 0 1|settle|load 0 auto http://a.test/1|settle'),
        ('reload_of_a_removed_frame', 'A reload waits for its turn, and its frame is removed.',
         'session 1|open http://a.test/|frame 0 1|frame 0 2|settle|load 1 auto http://a.test/f|settle|load 1 auto http://a.test/g|settle|go -1|reload 2|remove 0 2|act 1|deliver 1|settle'),
    ]),
    ('Session', [
        ('whole_session', 'A session with sites, frames, a dirty page and a death.',
         'session 1|keep 3|site http://shop.test 2|site http://ads.test 3|page http://shop.test/cart 0|open http://news.test/|load 0 auto http://news.test/1|settle|load 0 auto http://news.test/2|settle|frame 0 1|settle|load 1 auto http://ads.test/a|settle|load 0 auto http://news.test/2#top|settle|load 0 auto http://news.test/3|settle|go -1|settle|go 1|settle|load 0 auto http://shop.test/|settle|load 0 auto http://shop.test/p1|settle|load 0 auto http://shop.test/p2|settle|load 0 auto http://shop.test/cart|settle|edit 0|settle|load 0 auto http://news.test/4|settle|answer 14 stay|settle|kill 2|settle|reload 0|settle|load 0 auto http://shop.test/done|settle|go -2|settle'),
    ]),
]

# broken logs by the field that fails: name, what is wrong, the scenario, the edits
BROKEN = [
    ('opened', [
        ('another_first_entry', 'The first entry has another number.', 'one_push',
         [('change', '0 start opened', 'e0.1', 'e0.2')]),
        ('no_opening', 'The opening row is left out.', 'one_push', [('leave_out', '0 start opened')]),
        ('opened_late', 'The opening event has another number.', 'opened_only', [('change', '0 start opened', '0 start', '1 start')]),
        ('opened_by_the_user', 'The opening row is the user\'s.', 'opened_only', [('change', '0 start opened', '0 start', '0 ui')]),
        ('first_entry_of_a_document', 'The first entry is one that a document made.', 'opened_only', [('change', '0 start opened', 'e0.1', 'e1.1')]),
        ('another_first_state', 'The first document state has another number.', 'opened_only', [('change', '0 start opened', ' s1', ' s2')]),
        ('another_first_document', 'The first document has another number.', 'opened_only', [('change', '0 start opened', ' d1', ' d2')]),
        ('another_first_row', 'The first row opens nothing.', 'opened_only',
         [('change', '0 start opened', 'opened n0 e0.1 s1 d1 p1 - http://a.test/', 'delivered p1')]),
        ('opening_with_a_request', 'The opening event has a second row.', 'opened_only',
         [('insert', '0 start opened', '0 ui accepted r1 - go 1')]),
    ]),
    ('numbered', [
        ('gap', 'An event is left out, and its number is missing.', 'three_pushes', [('gap', '4 p1 ')]),
        ('two_actors', 'A row of an event has another actor.', 'one_push', [('change', '3 co applied', '3 co', '3 ui')]),
    ]),
    ('formed', [
        ('taken_out_of_order', 'An order is taken before the first one of the mail.', 'one_prompt_for_two',
         [('change', ' taken p1 j11', 'j11', 'j12')]),
        ('another_outcome', 'An update ends as an activation.', 'one_push', [('change', ' finished p1 j1', 'updated', 'activated')]),
        ('void_order_taken_live', 'An order to a dead incarnation is taken live.', 'void_order',
         [('change', ' taken p1 j1', 'void', 'live clean')]),
        ('dirty_document_taken_clean', 'A document with unsaved edits is noted as clean.', 'leave',
         [('change', ' taken p1 j4', 'dirty', 'clean')]),
        ('delivered_without_report', 'A report is delivered that no process made.', 'one_push',
         [('insert', '6 co delivered', '7 co delivered p1')]),
        ('another_document_evicted', 'Another document than the longest kept one is evicted.', 'evicted_documents',
         [('change', ' evicted s3', 's3', 's2')]),
        ('edit_made_and_not_applied', 'An edit is made, and not applied in its event.', 'leave', [('leave_out', ' applied r2 edit')]),
        ('answered_twice', 'A prompt is answered twice.', 'leave', [('insert', '23 co applied r3', '24 ui answered r3 leave')]),
        ('poke_of_another_document', 'A poke names another document than the one that runs.', 'push_beside_a_frame',
         [('change', ' accepted r2 d1', 'd1', 'd2')]),
        ('delivered_by_the_user', 'A report is delivered by the user.', 'one_push', [('change', '6 co delivered', '6 co', '6 ui')]),
        ('poke_kept_by_the_dead', 'A death leaves a poke in the input.', 'poke_of_a_dead_document', [('leave_out', ' dropped r1')]),
        ('fragment_that_makes_nothing', 'A fragment order of a running document makes nothing.', 'fragment_load', [('leave_out', ' made p1 r1')]),
        ('another_death_number', 'A death has another number than the next.', 'void_order', [('change', ' killed p1', 'x1', 'x2')]),
    ]),
    ('once', [
        ('two_outcomes', 'A request is applied twice.', 'one_push', [('double', '3 co applied r1')]),
        ('made_another_address', 'A document makes another address than its reference spells.', 'one_push',
         [('change', ' made p1 r1', '/1', '/2')]),
        ('applied_another_address', 'The applied push has another address than the document made.', 'one_push',
         [('change', ' applied r1', '/1', '/2')]),
        ('another_goal', 'A traversal begins with another goal.', 'back_after_three_pushes',
         [('change', ' started r4 2', '4 2', '4 1')]),
        ('push_for_a_replace', 'A load of an initial document pushes.', 'frame_replaced',
         [('change', ' applied r2 replace', 'replace n1 e0.2 e0.3', 'push n1 e0.3')]),
        ('another_request_number', 'A request has another number than the next.', 'beyond_the_end',
         [('change', ' accepted r1', 'r1', 'r2')]),
        ('reload_that_did_not_begin', 'A reload is applied that never began.', 'load_ended_by_a_reload',
         [('leave_out', ' started r2')]),
        ('another_document_state', 'A frame is added with another document state than the next.', 'taken_number',
         [('change', ' applied r1', 's2', 's3')]),
        ('begins_twice', 'A traversal begins twice.', 'back_after_three_pushes', [('double', ' started r4')]),
        ('fragment_load_with_a_document', 'A load that is a fragment navigation begins as one with a new document.', 'fragment_load',
         [('change', ' sent j1', 'sent j1 p1 0 d1 r1 fragment r1 auto http://a.test/#x', 'started r1')]),
        ('two_loads_of_one_navigable', 'A load begins and the earlier one goes on.', 'later_load', [('leave_out', ' dropped r1')]),
    ]),
    ('caused', [
        ('dropped_by_a_request_that_ended', 'A load is dropped by a request that has ended.', 'later_load',
         [('change', ' dropped r4 by', 'by r3', 'by r2')]),
        ('dropped_by_another_death', 'A load is dropped for a death that never was.', 'load_below_a_lost_navigable',
         [('change', ' dropped r2', 'x1', 'x2')]),
        ('refused_for_another_reason', 'A frame is refused for another reason.', 'taken_number',
         [('change', ' refused r2', 'nav-taken', 'no-navigable')]),
        ('stay_that_was_not_answered', 'A traversal is dropped for a stay that the user did not answer.', 'stay',
         [('change', ' answered r3', 'stay', 'leave')]),
        ('stay_without_a_drop', 'The user stays, and the traversal is not dropped.', 'stay', [('leave_out', ' dropped r3')]),
        ('refused_without_reason', 'A traversal is refused though there is a step.', 'document_goes_back',
         [('change', '9 co started', 'started r2 0', 'refused r2 no-step')]),
        ('poke_refused_without_reason', 'A poke is refused though its document runs.', 'poke_that_waits',
         [('change', ' accepted r1', 'r1 d1', 'r1 -'), ('insert', ' accepted r1', '1 ui refused r1 no-document')]),
        ('load_that_is_not_refused', 'A load of a navigable that is not there is not refused.', 'load_of_no_navigable', [('leave_out', ' refused r1')]),
        ('destroyed_by_another_request', 'A push is dropped for a removal that was none.', 'push_of_a_removed_frame',
         [('change', ' dropped r3', 'destroyed r2', 'destroyed r1')]),
        ('frame_refused_without_its_report', 'A frame is refused in an event that takes no report.', 'taken_number',
         [('move', ' refused r2', ' made p1 r2')]),
        ('reload_refused_as_its_frame_is_gone', 'A reload that waits is refused as its frame is removed, and not dropped.', 'reload_of_a_removed_frame',
         [('change', ' dropped r6', 'dropped r6 destroyed r7', 'refused r6 no-navigable')]),
        ('dropped_by_itself', 'A load of a new frame is dropped by itself.', 'load_of_a_new_frame', [('change', ' dropped r2', 'by r1', 'by r2')]),
    ]),
    ('queued', [
        ('traversal_applied_early', 'A traversal is applied before all navigables stand.', 'push_beside_a_running_traversal',
         [('move', ' applied r7 traverse', '64 co delivered')]),
        ('old_epoch_applied', 'A push under an old epoch is applied.', 'push_under_an_old_epoch',
         [('change', '12 co dropped r3', 'dropped r3 by r2', 'applied r3 push n0 e1.2 s1 t http://a.test/2')]),
        ('push_waits_for_the_traversal', 'A push that may jump the queue waits for the traversal.', 'push_beside_a_running_traversal',
         [('move', ' applied r6 push', ' applied r7 traverse')]),
        ('held_back_push_applied_early', 'A held back push is applied before its traversal.', 'held_back_push',
         [('move', ' applied r6', ' co delivered p1', 'last before', ' applied r5 traverse')]),
        ('begins_out_of_turn', 'A traversal begins before the one before it has ended.', 'two_traversals_in_the_queue',
         [('move', ' started r4', ' accepted r4')]),
        ('load_applied_during_a_traversal', 'A load is applied while a traversal is under way.', 'load_ended_by_a_traversal',
         [('change', ' dropped r2', 'dropped r2 by r3', 'applied r2 push n0 e0.3 s3 - http://b.test/p0')]),
    ]),
    ('ordered', [
        ('update_sent_twice', 'An update is sent again.', 'one_push',
         [('insert', '3 co sent j1', '3 co sent j2 p1 0 d1 r1 update 2 1')]),
        ('another_length', 'An update has another length.', 'one_push', [('change', ' sent j1', 'update 2', 'update 3')]),
        ('order_for_a_dead_document', 'A dead document is shown.', 'push_after_a_death',
         [('insert', '8 co delivered', '8 co sent j2 p1 1 d1 x1 activate e1.1 2 2 1 s http://a.test/1')]),
        ('old_epoch_sent', 'A document is shown under an epoch that was.', 'leave', [('change', ' sent j6', 'e0.1 3', 'e0.1 2')]),
        ('made_twice', 'A document is made twice.', 'later_load',
         [('insert', '1 ui sent j1', '1 ui sent j2 p1 0 d3 r1 populate n0 s2 plain http://a.test/1')]),
        ('handler_not_asked', 'A document with a handler is left unasked.', 'leave', [('leave_out', ' sent j4')]),
        ('eviction_without_discard', 'A document is evicted, and not discarded.', 'evicted_documents', [('leave_out', ' sent j12')]),
        ('another_incarnation', 'An order goes to an incarnation that is not known.', 'one_push',
         [('change', ' sent j1', 'p1 0', 'p1 1')]),
        ('shown_too_late', 'An order shows another entry than the target.', 'document_goes_back',
         [('change', ' sent j2', 'activate e0.1', 'activate e1.1')]),
        ('frozen_without_leaving', 'A document is frozen that nothing is shown instead of.', 'one_push',
         [('change', ' sent j1', 'update 2 1', 'freeze')]),
        ('discarded_without_cause', 'A document is discarded that is needed.', 'one_push', [('change', ' sent j1', 'update 2 1', 'discard')]),
        ('another_handler_slot', 'A document is asked at another slot than its own.', 'leave', [('change', ' sent j4', 'ask 0', 'ask 1')]),
        ('another_leave_cause', 'A document is asked for another cause.', 'leave', [('change', ' sent j4', 'traverse', 'reload')]),
        ('asked_after_it_went_on', 'A load begins and has its document made, and only then asks the one that it leaves.', 'load_behind_an_answer',
         [('change', ' sent j4', 'sent j4', 'sent j5'), ('insert', ' started r3', '13 ui sent j4 p1 0 d3 r3 populate n0 s3 plain http://a.test/2'), ('keep_to', ' sent j5')]),
        ('asked_out_of_order', 'The frame is asked before the top.', 'one_prompt_for_two', [('move', ' sent j9', ' sent j10')]),
        ('shown_before_it_is_made', 'A document is shown before it is made.', 'taken_number', [('move', ' sent j2', ' sent j1')]),
        ('initial_document_made_plain', 'An initial about:blank document is made as a plain one.', 'taken_number',
         [('change', ' sent j1', 'initial', 'plain')]),
        ('another_fragment', 'A fragment order has another address than its load.', 'fragment_load', [('change', ' sent j1', '#x', '#y')]),
    ]),
    ('checked', [
        ('frozen_before_the_answer', 'A document is frozen before the user has answered.', 'leave',
         [('move', ' sent j5', ' prompted r3')]),
        ('prompt_left_out', 'A document wants a prompt, and the user is not asked.', 'leave', [('leave_out', ' prompted r3')]),
        ('prompt_for_the_higher_number', 'The user is asked for another document than the lowest-numbered.', 'one_prompt_for_two',
         [('change', ' prompted r4', 'd2', 'd4')]),
        ('made_before_the_answer', 'A document is made before the user has answered.', 'load_behind_an_answer',
         [('move', 'populate n0 s3', ' prompted r3')]),
    ]),
    ('settled', [
        ('update_forgotten', 'A push without the update of the frame beside it.', 'push_beside_a_frame',
         [('leave_out', '18 co delivered'), ('leave_out', ' finished p1 j4'), ('leave_out', ' taken p1 j4'), ('leave_out', ' sent j4')]),
        ('update_after_a_guess_forgotten', 'A held back push and a removal without the update after them.', 'removal_and_push',
         [('leave_out', '76 co delivered'), ('leave_out', ' finished p1 j20'), ('leave_out', ' taken p1 j20'), ('leave_out', ' sent j20')]),
        ('traversal_forgotten', 'A traversal without an outcome.', 'beyond_the_end', [('leave_out', ' refused r1')]),
        ('frame_forgotten', 'A new frame whose document is never made.', 'taken_number',
         [('keep_to', ' applied r1 frame')]),
    ]),
]

# logs in which the tab puts off what it could do, or does it in vain: name, what is wrong, the scenario, the field that fails, the edits
PUT_OFF = [
    ('shown_for_the_push_that_cleared', 'A frame is shown its entry for the push that cleared the other, which then drops what the frame made.', 'entry_of_a_frame_is_cleared', 'in_time',
     [('change', ' sent j23', 'd4 r8', 'd4 r7'), ('change', '80 co dropped r9', 'by r8', 'by r7'), ('keep_to', '80 co dropped r9')]),
    ('right_guess_without_update', 'A push without its update: the document has guessed length and index right.', 'one_push', 'told',
     [('leave_out', '6 co delivered'), ('leave_out', ' finished p1 j1'), ('leave_out', ' taken p1 j1'), ('leave_out', ' sent j1')]),
    ('update_put_off', 'A push is applied, and its update waits for the next one.', 'two_pushes_on_their_way', 'told', [('leave_out', ' sent j1')]),
    ('traversal_not_applied', 'A traversal runs on though all stand at its goal.', 'push_behind_a_traversal', 'stepped', [('leave_out', ' applied r2')]),
    ('traversal_not_begun', 'A traversal waits though none runs and all stand.', 'traversal_beside_a_push', 'stepped',
     [('leave_out', ' sent j2'), ('leave_out', ' started r3')]),
    ('ready_load_not_applied', 'A load waits though its document is there and all stand.', 'load_beside_a_push', 'stepped',
     [('leave_out', ' applied r1'), ('leave_out', ' sent j2'), ('leave_out', ' sent j3')]),
    ('order_to_a_discarded_document', 'A document is sent a Discard, and another one.', 'no_document_kept', 'in_time',
     [('change', '4 co sent j3', '4 co sent j3 p1 0 d2 r1 activate e0.2 2 2 1 - http://a.test/1', '4 co sent j3 p1 0 d1 r1 discard'),
      ('insert', '4 co sent j3', '4 co sent j4 p1 0 d2 r1 activate e0.2 2 2 1 - http://a.test/1'), ('keep_to', '4 co sent j4')]),
    ('frozen_twice', 'A document is frozen twice.', 'load_beside_a_push', 'in_time',
     [('change', '5 co sent j3', 'sent j3 p1 0 d2 r1 activate e0.2 2 2 1 - http://a.test/1', 'sent j3 p1 0 d1 r1 freeze'),
      ('insert', '5 co sent j3', '5 co sent j4 p1 0 d2 r1 activate e0.2 2 2 1 - http://a.test/1')]),
    ('shown_for_another_request', 'While a traversal runs an entry is shown for a request that has ended.', 'traversal_beside_a_push', 'in_time',
     [('change', ' sent j2', 'd1 r3', 'd1 r1')]),
    ('frozen_for_another_request', 'While a traversal runs a document is frozen for a request that has ended.', 'reload_of_a_removed_frame', 'in_time',
     [('change', ' sent j13', 'd5 r5', 'd5 r4')]),
    ('shown_where_it_is_hidden', 'A document is shown in a frame that hangs on another document.', 'load_over_a_frame', 'in_time',
     [('insert', '22 co delivered', '22 co sent j7 p1 0 d2 r2 activate e0.2 2 2 1 - about:blank')]),
    ('load_applied_without_its_document', 'A load is applied before its document is made.', 'load_beside_a_push', 'in_time',
     [('move', ' applied r1', ' sent j1'), ('keep_to', ' applied r1')]),
    ('push_applied_without_its_report', 'A push is applied in the event that takes the report of another.', 'two_pushes_on_their_way', 'in_time',
     [('insert', ' applied r1', '5 co applied r2 push n0 e1.2 s1 t http://a.test/2'), ('change', ' sent j1', 'update 2 1', 'update 3 2')]),
]

# logs in which a load ends too late: name, what is wrong, the scenario, the edits
LATE = [
    ('load_outlives_a_traversal', 'A load outlives the traversal that moves its navigable.', 'load_ended_by_a_traversal', [('leave_out', ' dropped r2')]),
    ('load_outlives_a_reload', 'A load outlives the reload of its navigable.', 'load_ended_by_a_reload', [('leave_out', ' dropped r1')]),
]

# logs that don't suit other settings than their own: name, what is wrong, the scenario, the field that fails, the settings' change
UNSUITED = [
    ('another_first_address', 'The tab opens at another address.', 'opened_only', 'opened', ('first', 'http://b.test/')),
    ('another_first_process', 'The tab opens in another process than its site says.', 'opened_only', 'opened', ('sites', {'http://a.test': 2})),
    ('another_first_handler', 'The first document has no handler, and its page says one.', 'opened_only', 'opened', ('pages', {'http://a.test/': 1})),
    ('another_process', 'A document is made in another process than its site says.', 'two_processes', 'placed', ('sites', {'http://b.test': 3})),
    ('another_handler', 'A document has another handler than its page says.', 'leave', 'placed', ('pages', {'http://a.test/1': 1})),
    ('discarded_too_early', 'A kept document is discarded though more may be kept.', 'evicted_documents', 'placed', ('keep', 2)),
    ('too_many_kept', 'More documents are kept than may be.', 'evicted_documents', 'kept', ('keep', 0)),
]

# logs that no settings suit
NOT_OPENED = [
    ('log_without_its_opening', 'A log without its opening.', '(log_of (since 1 one_push))'),
    ('no_row', 'No row at all.', '[]'),
]

# logs that the checker calls legal, and the definitions don't: a reload that is applied has to have begun
BEYOND_THE_CHECKER = {'reload_that_did_not_begin'}
FIELDS = ['opened', 'numbered', 'formed', 'once', 'caused', 'queued', 'ordered', 'checked', 'settled']


# ---- the model

class Model:
    """The plain model and its checker, of a folder."""

    def __init__(self, folder):
        sys.path.insert(0, folder)
        import fuzz_check
        import logcheck
        import logtext
        import scenario
        import tab
        from engine import World
        self.fuzz, self.check, self.logtext, self.scenario, self.tab, self.World = fuzz_check, logcheck, logtext, scenario, tab, World

    def play(self, text):
        """The lines of the log of a scenario."""
        read = self.scenario.read(text.encode())
        world = self.World(read.header)
        for line in read.lines:
            self.tab.play_line(world, line)
        return [self.logtext.row_line(row) for row in world.log]

    def rows(self, lines):
        return self.check.read_log('\n'.join(lines))

    def verdict(self, lines):
        """None where the log is legal, else the number of the checker's clause."""
        found, _ = self.check.check(self.rows(lines))
        return None if found is None else found[1]


# ---- edits of a log

def renumbered(lines):
    """The events numbered without a gap."""
    out, last, number = [], None, -1
    for line in lines:
        event, rest = line.split(' ', 1)
        if event != last:
            last, number = event, number + 1
        out.append('%d %s' % (number, rest))
    return out


def find(lines, where):
    for i, line in enumerate(lines):
        if where in ' ' + line or line.startswith(where):
            return i
    raise SystemExit('no row with %r' % where)


def moved(lines, i, j):
    """Row i after row j, in the event of row j."""
    row = lines[i].split(' ')
    row[:2] = lines[j].split(' ')[:2]
    rest = lines[:i] + lines[i + 1:]
    at = j if i < j else j + 1
    return renumbered(rest[:at] + [' '.join(row)] + rest[at:])


def edited(lines, edits):
    for edit in edits:
        kind, i = edit[0], find(lines, edit[1])
        if kind == 'change':
            if edit[2] not in lines[i]:
                raise SystemExit('no %r in %r' % (edit[2], lines[i]))
            lines = lines[:i] + [lines[i].replace(edit[2], edit[3], 1)] + lines[i + 1:]
        elif kind == 'leave_out':
            lines = renumbered(lines[:i] + lines[i + 1:])
        elif kind == 'gap':
            event = lines[i].split(' ')[0]
            lines = [line for line in lines if line.split(' ')[0] != event]
        elif kind == 'double':
            lines = lines[:i + 1] + lines[i:]
        elif kind == 'insert':
            lines = lines[:i + 1] + [edit[2]] + lines[i + 1:]
        elif kind == 'keep_to':
            lines = lines[:i + 1]
        elif kind == 'move' and len(edit) == 5:
            end = find(lines, edit[4])
            lines = moved(lines, i, max(k for k in range(end) if edit[2] in lines[k] and lines[k].split(' ')[0] != lines[end].split(' ')[0]))
        elif kind == 'move':
            lines = moved(lines, i, find(lines, edit[2]))
    return lines


# ---- lemma files

def is_used(name, body):
    """The name stands in the text, outside of quoted texts and comments."""
    plain = re.sub(r'"[^"]*"|^--.*$', ' ', body, flags=re.M)
    return re.search(r'(?<![\w.])%s(?![\w.])' % re.escape(name.strip('◌')), plain) is not None


def imports(body):
    """The imports that the text uses."""
    out = []
    for line in log_rows.HEAD.splitlines():
        names = re.fullmatch(r'(use .*\.)\{(.*)\}', line)
        if names is None:
            if ' %s.' % line.split(' ')[-1] in body or '(%s.' % line.split(' ')[-1] in body:
                out.append(line)
            continue
        used = [name for name in names[2].split(', ') if is_used(name, body)]
        if used:
            out.append('%s{%s}' % (names[1], ', '.join(used)))
    return '\n'.join(out) + '\n'


PLAIN = 'record { keep = 3; sites = []; pages = []; first = codes "http://a.test/" }'


def setting(header):
    """The settings as a term."""
    sites = ' ∷ '.join(['record { origin = codes "%s"; proc = p %d }' % site for site in header.sites.items()] + ['[]'])
    pages = ' ∷ '.join(['record { base = codes "%s"; slot = %d }' % page for page in header.pages.items()] + ['[]'])
    return 'record { keep = %d; sites = %s; pages = %s; first = codes "%s" }' % (header.keep, sites, pages, header.first)


def header_of(name, header):
    """The name of the settings, and their definition where they need one."""
    if setting(header) == PLAIN:
        return 'plain_settings', ''
    return '%s_header' % name, 'abbrev pub %s_header : Header\n%s_header = %s\n\n' % (name, name, setting(header))


def events(lines):
    """The events of a log, or None where they aren't numbered by their places."""
    out = []
    for line in lines:
        number, actor, _ = line.split(' ', 2)
        if out and out[-1][0].split(' ')[:2] == [number, actor]:
            out[-1].append(line)
        elif int(number) == len(out):
            out.append([line])
        else:
            return None
    return out


class Logs:
    """The logs that were written so far: each is its events, or parts of a scenario's log and events between them."""

    # at least so many events are worth a name
    LEAST = 3

    def __init__(self, model):
        self.model = model
        self.written = {}
        self.shared = []
        self.homes = {}

    def term(self, lines, base):
        """The log as a term; a broken one is the log of its scenario, the base, but for what was edited."""
        found = events(lines)
        if found is None:
            return None
        told = [[line.split(' ', 1)[1] for line in event] for event in found]
        parts, at = [], 0
        while at < len(told):
            length, name, start = self.longest(told, at, base)
            if length >= self.LEAST:
                parts.append(self.part(name, start, start + length))
                at += length
            else:
                parts.append(log_rows.event(self.model.rows(found[at])))
                at += 1
        return told, parts

    def longest(self, told, at, base):
        """The longest part of a scenario's log that stands there: of the base any, of another its beginning."""
        best = 0, None, None
        for name, other in ([(base, self.written[base])] if base else []) + self.shared:
            for start in range(len(other)) if name == base else ([0] if at == 0 else []):
                length = 0
                while at + length < len(told) and start + length < len(other) and told[at + length] == other[start + length]:
                    length += 1
                if length > best[0]:
                    best = length, name, start
        return best

    def part(self, name, start, end):
        whole = len(self.written[name])
        if end == whole:
            return 'since %d %s' % (start, name) if start else name
        return 'between %d %d %s' % (start, end, name) if start else 'before %d %s' % (end, name)

    def defined(self, name, sentence, lines, base=None, shared=False):
        """The definition of a log, and the term of its rows."""
        found = self.term(lines, base)
        if found is None:
            return '-- %s\nabbrev pub %s : List LogRow\n%s =\n    %s\n\n' % (sentence, name, name, log_rows.terms(self.model.rows(lines))), name
        self.written[name], parts = found
        if shared:
            self.shared.append((name, self.written[name]))
        term = '[]' if parts[-1].startswith('by_') else parts.pop()
        for part in reversed(parts):
            term = '%s\n    %s %s' % (part, '∷' if part.startswith('by_') else '++', term)
        return '-- %s\nabbrev pub %s : List Event\n%s =\n    %s\n\n' % (sentence, name, name, term), '(log_of %s)' % name

    def header(self, title, body, module):
        """The head of a file, with what it takes from others."""
        taken = {}
        for name, home in self.homes.items():
            if is_used(name, body):
                taken.setdefault(home, []).append(name)
        for name in re.findall(r'^abbrev pub (\w+) : List Event', body, re.M):
            self.homes[name] = module
        uses = ''.join('use Rattle.log_examples.proofs.%s.{%s}\n' % (home, ', '.join(names)) for home, names in taken.items())
        return '-- %s\n-- A log is its events: those before one of another log, since one, or between two, and its own.\n%s%s\n' % (title, imports(body), uses)


def lemma_of(name, what, claim, proof):
    return 'pub %s_%s : %s\n%s\n%s_%s = %s\n' % (name, what, claim, log_rows.UNFOLDING, name, what, proof)


def legal_lemma(logs, name, sentence, lines, header, base=None, shared=False):
    fields = '; '.join('%s = refl' % field for field in FIELDS)
    defined, log = logs.defined(name, sentence, lines, base, shared)
    settings, also = header_of(name, header)
    lemmas = [
        ('is_legal', 'IsLegal %s' % log, 'record { %s }' % fields),
        ('ends_loads', 'LoadsEndInTime %s' % log, 'refl'),
        ('acts_at_once', 'ActsAtOnce %s' % log, 'record { told = refl; stepped = refl; in_time = refl }'),
        ('suits', 'Suits %s %s' % (settings, log), 'record { opened = refl; placed = refl; kept = refl }'),
    ]
    return defined + also + '\n'.join(lemma_of(name, *lemma) for lemma in lemmas)


def broken_lemma(logs, name, sentence, lines, base, claim, fact):
    """The lemma that a claim, with the log in the place of its `%s`, is refuted."""
    defined, log = logs.defined(name, sentence, lines, base)
    return defined + 'pub %s_is_refused : %s → ⊥\n%s\n%s_is_refused holds = false≢true %s\n' % (
        name, claim % log, log_rows.UNFOLDING, name, fact), log


# the logs of bench/sentences.txt, by the field that fails: the claim, and where the lemmas stand
CLAIMS = {**{field: ('IsLegal %s', 'holds.' + field, 'Not' + field.capitalize()) for field in FIELDS},
          'loads': ('LoadsEndInTime %s', 'holds', 'NotEnding'),
          **{field: ('ActsAtOnce %s', 'holds.' + field, 'NotAtOnce') for field in ('told', 'stepped', 'in_time')},
          **{field: ('Suits {} %s', 'holds.' + field, 'NotSuited') for field in ('placed', 'kept')},
          'once': ('IsLegal %s', 'holds.once', 'OnceApart'), 'caused': ('IsLegal %s', 'holds.caused', 'CausesApart')}

# files of their own for what would make others long
APART = [('Variants', 'Legal logs that each tell one sentence of a definition.'),
         ('KeptApart', 'Logs that keep one part of the rules and break another, and so tell one sentence of a definition.'),
         ('OnceApart', 'Broken logs, each refused by the field `once`, that each tell one sentence of a definition.'),
         ('MadeApart', 'The same, where a Made row is among the rows that end the log.'),
         ('CausesApart', 'Broken logs, each refused by the field `caused`, that each tell one sentence of a definition.'),
         ('DropsApart', 'The same, where a drop is among the rows that end the log.')]
# of one field, a file for the logs in whose last event such a row stands
BY_ROW = {'OnceApart': (' made ', 'MadeApart'), 'CausesApart': (' dropped ', 'DropsApart')}


# the part of the rules that a log keeps, though it breaks another
KEPT = {'formed': 'IsFormed', 'once': 'EachRequestOnce', 'caused': 'OutcomesAreCaused', 'queued': 'KeepsQueueOrder', 'ordered': 'OrdersAreCaused',
        'checked': 'ChecksAreKept', 'settled': 'QuietIsSettled', 'loads': 'LoadsEndInTime', 'told': 'AtEachEvent (at_end ends_told)', 'stepped': 'AtEachEvent (at_end ends_stepped)',
        'in_time': 'AtEachEvent goes_in_time', 'placed': 'AtEachEvent (each_row (is_suitable_row {}))'}


def sentences():
    """The logs of bench/sentences.txt: name, field, scenario, what it shows, and the rows that end it."""
    with open(os.path.join(TOP, 'bench', 'sentences.txt')) as source:
        blocks = source.read().split('\n= ')[1:]
    for block in blocks:
        head, scenario, sentence, *rows = block.strip().split('\n')
        name, field = head.split(' ')
        yield name, field, scenario, sentence, rows


def told_apart(model, logs, played, texts):
    """The lemmas of the logs of bench/sentences.txt, by the file that they join."""
    out = {}
    for name, field, scenario, sentence, rows in sentences():
        text = texts.get(scenario, scenario)
        if text not in played:
            played[text] = model.play(text.replace('|', '\n') + '\n')
        event = int(rows[0].split(' ')[0])
        lines = [line for line in played[text] if int(line.split(' ')[0]) < event] + rows
        header, _ = model.check.read_scenario(text.replace('|', '\n'))
        base = scenario if scenario in texts else None
        verdict = model.verdict(lines)
        if field == 'legal':
            if verdict is not None:
                raise SystemExit('%s: the checker finds clause %s' % (name, verdict))
            out.setdefault('Variants', []).append(legal_lemma(logs, name, sentence, lines, header, base))
            continue
        if field.startswith('keeps_'):
            claim = KEPT[field[6:]]
            settings, also = header_of(name, header) if '{}' in claim else ('', '')
            defined, log = logs.defined(name, sentence, lines, base)
            out.setdefault('KeptApart', []).append(also + defined + lemma_of(name, field, '%s %s' % (claim.replace('{}', settings), log), 'refl'))
            continue
        claim, fact, home = CLAIMS[field]
        settings, also = header_of(name, header) if '{}' in claim else ('', '')
        if field in FIELDS and verdict is None or '{}' in claim and not model.check.suits(model.rows(lines), header):
            raise SystemExit('%s: the checker judges otherwise' % name)
        word, other = BY_ROW.get(home, ('', home))
        home = other if any(word in row for row in rows) else home
        out.setdefault(home, []).append(also + broken_lemma(logs, name, sentence, lines, base, claim.replace('{}', settings), fact)[0])
    return out


def module(logs, folder, name, title, lemmas):
    body = '\n'.join(lemmas)
    with open(os.path.join(folder, name + '.antt'), 'w') as file:
        file.write(logs.header(title, body, name) + body)
    return name


def gate(model):
    folder = os.path.join(TOP, 'crates', 'log_examples', 'proofs')
    names, played, texts, legal, broken, logs = [], {}, {}, 0, 0, Logs(model)
    for topic, scenarios in SCENARIOS:
        lemmas = []
        for name, sentence, text in scenarios:
            lines = played[name] = model.play(text.replace('|', '\n') + '\n')
            if model.verdict(lines) is not None:
                raise SystemExit('%s: the checker finds clause %s' % (name, model.verdict(lines)))
            header, _ = model.check.read_scenario(text.replace('|', '\n'))
            lemmas.append(legal_lemma(logs, name, sentence, lines, header, shared=True))
            texts[name] = text
            legal += 1
        names.append(module(logs, folder, topic, 'Legal logs: %s.' % topic.lower(), lemmas))
    apart = told_apart(model, logs, {texts[name]: lines for name, lines in played.items()}, texts)
    names += [module(logs, folder, name, title, apart.pop(name)) for name, title in APART]
    for field, examples in BROKEN:
        lemmas = []
        for name, sentence, scenario, edits in examples:
            lines = edited(played[scenario], edits)
            if (model.verdict(lines) is None) != (name in BEYOND_THE_CHECKER):
                raise SystemExit('%s: the checker judges otherwise' % name)
            lemmas.append(broken_lemma(logs, name, sentence, lines, scenario, 'IsLegal %s', 'holds.' + field)[0])
            broken += 1
        lemmas += apart.pop('Not' + field.capitalize(), [])
        names.append(module(logs, folder, 'Not' + field.capitalize(), 'Broken logs, each refused by the field `%s`.' % field, lemmas))
    late = [broken_lemma(logs, name, sentence, edited(played[scenario], edits), scenario, 'LoadsEndInTime %s', 'holds')[0]
            for name, sentence, scenario, edits in LATE]
    names.append(module(logs, folder, 'NotEnding', 'Logs in which a load ends too late.', late + apart.pop('NotEnding', [])))
    put_off, lawful = [], 0
    for name, sentence, scenario, field, edits in PUT_OFF:
        lines = edited(played[scenario], edits)
        lemma, log = broken_lemma(logs, name, sentence, lines, scenario, 'ActsAtOnce %s', 'holds.' + field)
        if model.verdict(lines) is None:
            lawful += 1
            lemma += '\n-- a legal log, so that nothing else refuses it\n' + lemma_of(name, 'is_legal', 'IsLegal %s' % log, 'record { %s }' % '; '.join('%s = refl' % f for f in FIELDS))
        put_off.append(lemma)
    names.append(module(logs, folder, 'NotAtOnce', 'Logs in which the tab puts off what it could do, or does it in vain.', put_off + apart.pop('NotAtOnce', [])))
    unsuited = []
    for name, sentence, scenario, field, (part, value) in UNSUITED:
        header, _ = model.check.read_scenario(texts[scenario].replace('|', '\n'))
        setattr(header, part, value)
        if not model.check.suits(model.rows(played[scenario]), header):
            raise SystemExit('%s: the checker finds that it suits' % name)
        settings, also = header_of(name, header)
        unsuited.append('-- %s\n%spub %s_is_refused : Suits %s (log_of %s) → ⊥\n%s\n%s_is_refused holds = false≢true holds.%s\n' % (
            sentence, also, name, settings, scenario, log_rows.UNFOLDING, name, field))
    for name, sentence, log in NOT_OPENED:
        unsuited.append('-- %s\npub %s_is_refused : Suits plain_settings %s → ⊥\n%s\n%s_is_refused holds = false≢true holds.opened\n' % (
            sentence, name, log, log_rows.UNFOLDING, name))
    unsuited[-1] += '\n-- it has no event: after_opening: were equation 1 false, `formed` would not hold\n' + lemma_of('no_row', 'keeps_formed', 'IsFormed []', 'refl')
    names.append(module(logs, folder, 'NotSuited', 'Logs that do not suit their settings.', unsuited + apart.pop('NotSuited', [])))
    with open(os.path.join(folder, 'Lib.antt'), 'w') as file:
        file.write(''.join('pub mod %s\n' % name for name in names))
    print('%d legal logs, %d broken ones, %d in which a load ends late, %d that do not act at once (%d of them legal), %d that do not suit, and %d that tell a sentence' % (
        legal, broken, len(late), len(put_off), lawful, len(unsuited), len(list(sentences()))))


# ---- random logs

PROFILES = ['v1', 'nokill', 'mixed', 'hard1', 'hardk1', 'pct1', 'burst1', 'park1', 'prompt1', 'relo1']
WORDS = [('leave', 'prompt'), ('live', 'void'), ('clean', 'dirty'), ('initial', 'plain'), ('stay', 'leave'), ('freeze', 'discard'),
         ('load', 'traverse'), ('traverse', 'reload'), ('no-step', 'no-navigable'), ('not-shown', 'no-document'), ('no-document', 'address'),
         ('by', 'destroyed'), ('by', 'gone'), ('destroyed', 'by'), ('gone', 'by'), ('activated', 'updated'), ('auto', 'push'),
         ('auto', 'replace'), ('push', 'auto'), ('push', 'replace'), ('-', 's'), ('s', '-'), ('-', '0'), ('0', '-')]


def another_word(rng, word):
    """Another word for a word of a row, or None."""
    ways = [to for of, to in WORDS if word == of]
    if re.fullmatch(r'[nsdpjrx]?\d+', word):
        kind, number = re.fullmatch(r'([nsdpjrx]?)(\d+)', word).groups()
        ways.append('%s%d' % (kind, max(0, int(number) + rng.choice([-1, 1, 1, 2]))))
    if re.fullmatch(r'e\d+\.\d+', word):
        maker, number = map(int, word[1:].split('.'))
        ways.append(rng.choice(['e%d.%d' % (maker + 1, number), 'e%d.%d' % (max(0, maker - 1), number), 'e%d.%d' % (maker, number + 1), 'e%d.%d' % (maker, max(0, number - 1))]))
    if word.startswith('http'):
        ways.append(rng.choice(['http://a.test/', 'http://a.test/p1', word.split('#')[0] + '#f0', word + 'x']))
    ways = [way for way in ways if way != word]
    return rng.choice(ways) if ways else None


def random_edit(rng, lines):
    """One row changed, left out, doubled or moved, or an event left out or doubled."""
    i, kind = rng.randrange(1, len(lines)), rng.random()
    if kind < 0.22:
        return 'left out: ' + lines[i], renumbered(lines[:i] + lines[i + 1:])
    if kind < 0.34:
        return 'doubled: ' + lines[i], lines[:i + 1] + lines[i:]
    if kind < 0.46:
        j = max(1, min(len(lines) - 1, i + rng.choice([-3, -2, -1, 1, 2, 3])))
        rest = lines[:i] + lines[i + 1:]
        row = lines[i].split(' ')
        if rng.random() < 0.7:
            row[:2] = rest[j - 1].split(' ')[:2]
        return 'moved by %d: %s' % (j - i, lines[i]), renumbered(rest[:j] + [' '.join(row)] + rest[j:])
    if kind < 0.52:
        event = lines[i].split(' ')[0]
        group = [line for line in lines if line.split(' ')[0] == event]
        at = lines.index(group[0])
        if rng.random() < 0.6:
            return 'event left out: ' + group[0], renumbered(lines[:at] + lines[at + len(group):])
        again = [re.sub(r'^\d+', '999999', line) for line in group]
        return 'event doubled: ' + group[0], renumbered(lines[:at + len(group)] + again + lines[at + len(group):])
    words = lines[i].split(' ')
    ways = [(k, to) for k in range(2, len(words)) for to in [another_word(rng, words[k])] if to is not None]
    if not ways:
        return random_edit(rng, lines)
    k, words[k] = rng.choice(ways)
    row = ' '.join(words)
    return 'changed: %s -> %s' % (lines[i], row), lines[:i] + [row] + lines[i + 1:]


def random_logs(model, first, count, most):
    """Pairs of a log and what was done to it."""
    rng, seed, out = random.Random(first), first * 1000, []
    while len(out) < count:
        seed += 1
        text = model.fuzz.make_text(seed, PROFILES[seed % len(PROFILES)])
        if not text.startswith('session 1\n'):
            continue
        try:
            lines = model.play(text)
        except Exception:
            continue
        if len(lines) > most:
            event = lines[rng.randint(most // 2, most)].split(' ')[0]
            lines = [line for line in lines if int(line.split(' ')[0]) < int(event)]
        if len(lines) < 8:
            continue
        what = 'as played'
        if rng.random() < 0.5:
            what, lines = random_edit(rng, lines)
            try:
                model.rows(lines)
            except model.check.BadLine:
                continue
        out.append((seed, what, lines))
    return out


def at_random(model, first, count, most, folder):
    for name in os.listdir(folder):
        if name.endswith('.antt'):
            os.remove(os.path.join(folder, name))
    logs, names, legal = random_logs(model, first, count, most), [], 0
    with open(os.path.join(folder, 'logs.txt'), 'w') as file:
        for k, (seed, what, lines) in enumerate(logs):
            file.write('log_%d seed %d, %s, checker: %s\n%s\n\n' % (k, seed, what, model.verdict(lines) or 'legal', '\n'.join(lines)))
    for start in range(0, count, 25):
        body = ''
        for k, (seed, what, lines) in enumerate(logs[start:start + 25], start):
            is_legal = model.verdict(lines) is None
            legal += is_legal
            body += 'abbrev log_%d : List LogRow\nlog_%d =\n    %s\n\n' % (k, k, log_rows.terms(model.rows(lines)))
            body += 'log_%d_agrees : list_all (λ (holds : Bool). holds) (verdicts_of (events_of log_%d)) ≡ %s\n%s\nlog_%d_agrees = refl\n\n' % (
                k, k, 'true' if is_legal else 'false', log_rows.UNFOLDING, k)
            if what == 'as played':
                body += lemma_of('log_%d' % k, 'acts_at_once', 'ActsAtOnce log_%d' % k, 'record { told = refl; stepped = refl; in_time = refl }') + '\n'
        name = 'Random%d' % (start // 25)
        with open(os.path.join(folder, name + '.antt'), 'w') as file:
            file.write('-- Random logs.\n%suse Rattle.std.specs.List.{list_all}\nuse Rattle.log_examples.specs.Verdicts.{verdicts_of}\n\n%s' % (imports(body), body))
        names.append(name)
    with open(os.path.join(folder, 'Lib.antt'), 'w') as file:
        file.write(''.join('mod %s\n' % name for name in names))
    print('%d logs, %d rows, %d edited, %d legal' % (
        count, sum(len(lines) for _, _, lines in logs), sum(what != 'as played' for _, what, _ in logs), legal))


def main(words):
    if words[:1] == ['--random']:
        first, count, most = map(int, words[1:4])
        at_random(Model(words[5] if len(words) > 5 else os.path.join(TOP, '..', 'shared', 'model')), first, count, most, words[4])
    else:
        gate(Model(words[0] if words else os.path.join(TOP, '..', 'shared', 'model')))


if __name__ == '__main__':
    main(sys.argv[1:])
