package jcard.junit;

import java.util.Iterator;
import java.util.List;
import java.util.NoSuchElementException;
import java.util.Spliterator;
import java.util.Spliterators;
import java.util.stream.Stream;
import java.util.stream.StreamSupport;
import org.junit.jupiter.api.extension.AfterTestExecutionCallback;
import org.junit.jupiter.api.extension.Extension;
import org.junit.jupiter.api.extension.ExtensionContext;
import org.junit.jupiter.api.extension.ParameterContext;
import org.junit.jupiter.api.extension.ParameterResolver;
import org.junit.jupiter.api.extension.TestTemplateInvocationContext;
import org.junit.jupiter.api.extension.TestTemplateInvocationContextProvider;

/** Repeats a test until its command is not cut. JUnit asks for a repetition when the one before has ended. */
final class TornExtension implements TestTemplateInvocationContextProvider {
    @Override
    public boolean supportsTestTemplate(ExtensionContext context) {
        return context.getRequiredTestMethod().isAnnotationPresent(TornAtEachWrite.class);
    }

    @Override
    public Stream<TestTemplateInvocationContext> provideTestTemplateInvocationContexts(ExtensionContext context) {
        TornAtEachWrite asked = context.getRequiredTestMethod().getAnnotation(TornAtEachWrite.class);
        Repetitions repetitions = new Repetitions(new Sweep(asked.recovery()));
        return StreamSupport.stream(Spliterators.spliteratorUnknownSize(repetitions, Spliterator.ORDERED), false);
    }

    private static final class Repetitions implements Iterator<TestTemplateInvocationContext> {
        private final Sweep sweep;
        private boolean isAdvanced;
        private boolean isMore;

        Repetitions(Sweep sweep) {
            this.sweep = sweep;
        }

        @Override
        public boolean hasNext() {
            if (!isAdvanced) {
                isMore = sweep.advances();
                isAdvanced = true;
            }
            return isMore;
        }

        @Override
        public TestTemplateInvocationContext next() {
            if (!hasNext()) {
                throw new NoSuchElementException();
            }
            isAdvanced = false;
            return new Repetition(sweep);
        }
    }

    private static final class Repetition implements TestTemplateInvocationContext, ParameterResolver, AfterTestExecutionCallback {
        private final Sweep sweep;

        Repetition(Sweep sweep) {
            this.sweep = sweep;
        }

        @Override
        public String getDisplayName(int number) {
            return sweep.toString();
        }

        @Override
        public List<Extension> getAdditionalExtensions() {
            return List.of(this);
        }

        @Override
        public boolean supportsParameter(ParameterContext parameter, ExtensionContext context) {
            return parameter.getParameter().getType() == TornCard.class;
        }

        @Override
        public Object resolveParameter(ParameterContext parameter, ExtensionContext context) {
            return JcardExtension.held(context, sweep).card();
        }

        @Override
        public void afterTestExecution(ExtensionContext context) {
            if (!sweep.isTorn() && context.getExecutionException().isEmpty()) {
                throw new AssertionError("the test cut no command: it has to call TornCard.tear");
            }
        }
    }
}
